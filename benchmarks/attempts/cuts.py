"""The cut of a circuit: its machines and channels, the faults of a partition, and what `check` prints. By docs/FORMATS.md."""
from dataclasses import dataclass

from circuits import CLOCK, references

HUB = "hub:"
ECHOES = {"echo1": 1, "echo8": 8, "echo32": 32, "echo64": 64}


@dataclass
class Channel:
    """A channel; `given` is the signal whose values it has in the producer."""
    name: str
    producer: str
    consumer: str
    given: str
    needs: list
    capacity: int
    is_piped: bool


def listed(request, key):
    """The entries of a list of the partition."""
    return request.get(key, [])


class Cut:
    """The machines, with their hosts, and the channels that a request asks for."""

    def __init__(self, flat, request, capacity):
        self.flat, self.request, self.capacity = flat, request, capacity
        self.units, self.memories, self.pipes = listed(request, "units"), listed(request, "memories"), listed(request, "pipe")
        self.bridges = listed(request, "bridges")
        self.seen = {port: entry["name"] for entry in self.bridges for port in entry["sees"]}
        self.driven = {port: entry["name"] for entry in self.bridges for port in entry["drives"]}
        top = flat.instances[""].ports
        self.inputs = [name for way, name, ty in top if way == "input" and ty != CLOCK]
        self.outputs = [name for way, name, ty in top if way == "output"]
        self.clocks = [name for _, name, ty in top if ty == CLOCK]
        self.channels = self.all_channels()
        self.takers = {channel.name: channel.consumer for channel in self.channels}
        for channel in self.channels:
            channel.needs = self.needs(channel)
        if request.get("direct"):
            self.make_direct()
            self.takers = {channel.name: channel.consumer for channel in self.channels}
        self.machines = self.all_machines()

    def owner(self, instance):
        """The machine that has an instance."""
        return next((unit for unit in self.units if instance == unit or instance.startswith(unit + ".")), HUB)

    def all_channels(self):
        """The channels without direct ones, in order."""
        pairs = [(name, f"bridge:{self.driven[name]}" if name in self.driven else f"in:{name}", HUB) for name in self.inputs]
        for unit in self.units:
            around = self.owner(unit.rpartition(".")[0])
            for way, name, ty in self.flat.instances[unit].ports if unit in self.flat.instances else ():
                if ty != CLOCK:
                    pairs.append((f"{unit}.{name}", *((around, unit) if way == "input" else (unit, around))))
        for path, (instance, memory) in self.flat.memories.items():
            if path in self.memories:
                for port, part, ty, is_driven in memory.fields():
                    if ty != CLOCK:
                        pairs.append((f"{path}.{port}.{part}", *((self.owner(instance), path) if is_driven else (path, self.owner(instance)))))
        pairs += [(name, HUB, f"bridge:{self.seen[name]}" if name in self.seen else f"out:{name}") for name in self.outputs]
        pairs += [(path, self.owner(instance), f"halt:{path}") for path, (instance, _) in self.flat.stops.items()]
        return [self.channel(*pair) for pair in pairs]

    def channel(self, name, producer, consumer):
        """A channel, without its needs."""
        return Channel(name, producer, consumer, name, [], self.request.get("capacity", {}).get(name, self.capacity), name in self.pipes)

    def needs(self, channel):
        """The names of the channels into the producer that the signal depends on there, within a cycle."""
        producer, found, seen = channel.producer, set(), set()
        if producer.startswith(("in:", "bridge:")):
            return []
        waiting = self.flat.within(channel.given)
        while waiting:
            signal = waiting.pop()
            if signal in seen:
                continue
            seen.add(signal)
            if self.takers.get(signal) == producer:
                found.add(signal)
            else:
                waiting += self.flat.within(signal)
        return [each.name for each in self.channels if each.name in found]

    def is_hub(self, path):
        """Whether the hub has the driver of this signal."""
        return path in self.flat.drivers and self.flat.types[path] != CLOCK and self.owner(self.flat.drivers[path][0]) == HUB

    def makers(self):
        """The channels by name that may be origins: into the hub, not piped and not from a bridge."""
        return {c.name: c for c in self.channels if c.consumer == HUB and not c.is_piped and not c.producer.startswith("bridge:")}

    def origins(self, makers):
        """The copies in the hub, and the origins themselves, each with its origin's name."""
        flat, found, carried = self.flat, {name: name for name in makers}, {channel.name for channel in self.channels}

        def bare(path):
            driver = flat.drivers[path][1]
            return driver[1] if driver and driver[0] == "ref" and flat.types[driver[1]] == flat.types[path] else None

        wanted = [path for path in flat.drivers if self.is_hub(path) and path not in carried and path not in flat.registers and bare(path)]
        changed = True
        while changed:
            changed = False
            for path in wanted:
                if path not in found and bare(path) in found:
                    found[path], changed = found[bare(path)], True
        outs = {c.name: found[bare(c.name)] for c in self.channels if c.producer == HUB and c.name not in flat.stops and bare(c.name) in found}
        return found, outs

    def named(self):
        """What the hub names: pairs of who names it and what is named."""
        flat, pairs = self.flat, []
        for path in flat.drivers:
            if self.is_hub(path) and path not in flat.registers:
                pairs += [(path, name) for name in references(flat.drivers[path][1])]
        for path, (instance, _, condition, init) in flat.registers.items():
            if self.owner(instance) == HUB:
                own = flat.drivers.get(path, ("", None))[1]
                pairs += [("register", name) for expression in (condition, init, own) for name in references(expression)]
        for path, (instance, memory) in flat.memories.items():
            if self.owner(instance) == HUB and path not in self.memories:
                pairs += [("memory", f"{path}.{port}.{part}") for port, part, _, _ in memory.fields()]
        return pairs

    def make_direct(self):
        """Lets what the hub only copies go past it."""
        makers, pairs = self.makers(), self.named()
        found, outs = self.origins(makers)
        names = {name for _, name in pairs}
        direct = {name: origin for name, origin in outs.items() if name not in names and not makers[origin].producer in self.memories}
        used = {found[name] for who, name in pairs if name in found and who not in direct and who not in found}
        left = [c for c in self.channels if not (c.name in set(direct.values()) and c.name not in used)]
        for channel in left:
            if channel.name in direct:
                origin = makers[direct[channel.name]]
                channel.producer, channel.given, channel.needs = origin.producer, origin.name, origin.needs
        self.channels = left

    def all_machines(self):
        """The names of the machines with their hosts, in order."""
        names = [HUB, *self.units, *(path for path in self.flat.memories if path in self.memories)]
        names += [f"in:{name}" for name in self.inputs if name not in self.driven] + [f"out:{name}" for name in self.outputs if name not in self.seen]
        names += [f"halt:{path}" for path in self.flat.stops] + [f"bridge:{entry['name']}" for entry in self.bridges]
        hosts, machines = {}, []
        shares = {unit: k for k, units in enumerate(listed(self.request, "share")) for unit in units}
        for name in names:
            key = ("share", shares[name]) if name in shares else ("own", name)
            machines.append((name, hosts.setdefault(key, len(hosts))))
        return machines

    def text(self):
        """What `check` prints."""
        lines = [f"machine {name} host {host}\n" for name, host in self.machines]
        for c in self.channels:
            kind, width = self.flat.types[c.name]
            pipe = " pipe" if c.is_piped else ""
            lines.append(f"channel {c.name} {c.producer} {c.consumer} {kind}Int<{width}> capacity {c.capacity}{pipe} needs {' '.join(c.needs) or '-'}\n")
        return "".join(lines)
