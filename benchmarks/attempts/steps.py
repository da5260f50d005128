"""The network of a cut, as far as `replay` shows it: which steps are done, and which tokens were put. By docs/FORMATS.md.

What a step does to values isn't worked out here: the tokens of a channel are the values of its signal in the run of the reference circuit."""
from operations import digits


class Refused(Exception):
    """A step that isn't done, with its cause."""


class Network:
    """The counts of a network: cycles of machines, tokens put and taken, latches and flags of the machine's cycle, ports that were served."""

    def __init__(self, cut, rows):
        self.cut, self.rows = cut, rows
        self.channels = {channel.name: channel for channel in cut.channels}
        self.cycles = {name: 0 for name, _ in cut.machines}
        self.into = {name: [c.name for c in cut.channels if c.consumer == name] for name in self.cycles}
        self.out_of = {name: [c.name for c in cut.channels if c.producer == name] for name in self.cycles}
        self.puts, self.takes = dict.fromkeys(self.channels, 0), dict.fromkeys(self.channels, 0)
        self.served = dict.fromkeys(self.cycles, 0)
        self.dues = {path: due_ports(memory) for path, (_, memory) in cut.flat.memories.items() if path in cut.memories}

    def held(self, channel):
        """How many tokens a channel's queue holds."""
        return self.puts[channel.name] + channel.is_piped - self.takes[channel.name]

    def is_latched(self, name):
        """Whether the consumer has the channel's token of its cycle."""
        return self.takes[name] > self.cycles[self.channels[name].consumer]

    def is_fired(self, name):
        """Whether the producer gave the channel's token of its cycle."""
        return self.puts[name] > self.cycles[self.channels[name].producer]

    def go_on(self, machine):
        """Refuses a step of a machine that has done its cycles."""
        if self.cycles[machine] == self.rows:
            raise Refused("Ended")

    def first(self, names, has, cause):
        """Refuses with the first of these channels that hasn't what it should."""
        for name in names:
            if not has(name):
                raise Refused(f"{cause} {name}")

    def latch(self, name):
        channel = self.channels[name]
        self.go_on(channel.consumer)
        if self.is_latched(name):
            raise Refused("Latched")
        if self.held(channel) == 0:
            raise Refused(f"NoToken {name}")
        self.takes[name] += 1

    def fire(self, name):
        channel = self.channels[name]
        self.go_on(channel.producer)
        if self.is_fired(name):
            raise Refused("Fired")
        self.first(channel.needs, self.is_latched, "NeedsInput")
        if self.held(channel) >= channel.capacity:
            raise Refused(f"Full {name} {self.held(channel)}")
        self.puts[name] += 1

    def due(self, machine):
        """The port that is due, or None."""
        dues = self.dues.get(machine, [])
        return dues[self.served[machine]] if self.served[machine] < len(dues) else None

    def serve(self, machine, port):
        self.go_on(machine)
        self.first(self.out_of[machine], self.is_fired, "Unfired")
        if self.due(machine) != port:
            raise Refused(f"Order {self.due(machine) or '-'}")
        self.first([name for name in self.into[machine] if name.startswith(f"{machine}.{port}.")], self.is_latched, "NeedsInput")
        self.served[machine] += 1

    def finish(self, machine):
        self.go_on(machine)
        self.first(self.out_of[machine], self.is_fired, "Unfired")
        if self.due(machine) is not None:
            raise Refused(f"Unserved {self.due(machine)}")
        self.first(self.into[machine], self.is_latched, "NeedsInput")
        self.cycles[machine] += 1
        self.served[machine] = 0

    def has_port(self, machine, port):
        """Whether a machine is a listed memory with this port."""
        memory = self.cut.flat.memories[machine][1] if machine in self.dues else None
        return memory is not None and port in memory.readers + memory.writers

    def step(self, line):
        """Does the step of a line, or refuses it."""
        words = line.replace("\t", " ").split(" ")
        if len(words) == 2 and words[0] in ("latch", "fire") and words[1] in self.channels:
            getattr(self, words[0])(words[1])
        elif len(words) == 2 and words[0] == "finish" and words[1] in self.cycles:
            self.finish(words[1])
        elif len(words) == 3 and words[0] == "serve" and self.has_port(words[1], words[2]):
            self.serve(words[1], words[2])
        else:
            raise Refused("Stranger")

    def replayed(self, content):
        """Does the steps of a file. Returns None, or the text of the first refusal."""
        lines = content.decode("latin-1").split("\n")
        whole, rest = [line.removesuffix("\r") for line in lines[:-1]], lines[-1]
        for number, line in enumerate(whole + [rest] * (rest != ""), 1):
            try:
                self.step(line)
            except Refused as refused:
                return f"step {number}: {refused}"
        return None

    def text(self, values):
        """What `replay` prints, by the values of all cycles of the run."""
        lines = []
        for name, channel in self.channels.items():
            ty = self.cut.flat.types[name]
            tokens = [digits(ty, 0)] * channel.is_piped + [digits(ty, values[cycle][channel.given]) for cycle in range(self.puts[name])]
            lines.append(" ".join([name, f"{self.puts[name]}/{self.takes[name]}", *tokens]) + "\n")
        return "".join(lines)

    def lines(self):
        """A line for each step that there is, possible or not."""
        yield from (f"{word} {name}" for name in self.channels for word in ("latch", "fire"))
        yield from (f"finish {name}" for name in self.cycles)
        yield from (f"serve {name} {port}" for name in self.dues for port in self.ports_of(name))

    def ports_of(self, machine):
        """The ports of a listed memory."""
        memory = self.cut.flat.memories[machine][1]
        return memory.readers + memory.writers


def due_ports(memory):
    """The ports that are served in a cycle, in order."""
    late = memory.readers if memory.latency else []
    return [port for port in late if memory.under != "new"] + memory.writers + [port for port in late if memory.under == "new"]
