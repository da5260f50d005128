"""The run of the reference circuit: its rows and its snapshots. By docs/FORMATS.md."""
from circuits import CLOCK
from operations import apply, digits, fit

MOST_CYCLES = 1_000_000


class Reference:
    """The circuit with a register for each pipe and with the echoes. A state has a number by the path of each register and of each latency 1
    reader's data, by `pipe:` and the channel, and by `bridge:` and the name; and a list of words by the path of each memory."""

    def __init__(self, cut):
        self.cut, self.flat = cut, cut.flat
        self.ratios = cut.request.get("clocks", {})
        self.late = {path for path, (_, _, memory) in self.flat.data.items() if memory.latency}
        self.pipes = {channel.name: channel.consumer for channel in cut.channels if channel.is_piped}
        self.order = self.ordered()
        self.updates = [(path, *self.update(path)) for path in self.flat.registers]

    def zeros(self):
        """The state before the first cycle."""
        state = dict.fromkeys([*self.flat.registers, *self.late, *(f"pipe:{name}" for name in self.pipes), *(f"bridge:{e['name']}" for e in self.cut.bridges)], 0)
        return state | {path: [0] * memory.depth for path, (_, memory) in self.flat.memories.items()}

    def read(self, signal, machine):
        """What a machine reads where its text names a signal: its pipe, if it takes the channel."""
        return f"pipe:{signal}" if self.pipes.get(signal) == machine else signal

    def formula(self, expression, machine):
        """A function from the values of a cycle to the expression's number."""
        if expression is None:
            return lambda values: 0
        if expression[0] == "literal":
            return lambda values: expression[2]
        if expression[0] == "ref":
            name = self.read(expression[1], machine)
            return lambda values: values[name]
        _, operation, operands, numbers = expression
        parts, types = [self.formula(part, machine) for part in operands], [self.flat.type_of(part) for part in operands]
        return lambda values: apply(operation, types, [part(values) for part in parts], numbers)

    def ordered(self):
        """The signals that are computed in a cycle, each behind those that it reads, with their formulas."""
        found, done = [], set(self.cut.inputs) | self.late | set(self.flat.registers)

        def visit(signal):
            if signal not in done and self.flat.types[signal] != CLOCK:
                done.add(signal)
                for other in self.flat.within(signal):
                    visit(other)
                found.append((signal, self.word(signal) if signal in self.flat.data else self.driver(signal)))

        for signal in self.flat.types:
            visit(signal)
        return found

    def driver(self, signal):
        """The formula of a signal's driver."""
        instance, expression = self.flat.drivers[signal]
        return self.formula(expression, self.cut.owner(instance))

    def memory_machine(self, path):
        """The machine that has a memory."""
        return path if path in self.cut.memories else self.cut.owner(self.flat.memories[path][0])

    def word(self, signal, words=None):
        """The formula of what a reader reads: of the words, or of those in the values."""
        path, port, memory = self.flat.data[signal]
        address, enable = (self.read(f"{path}.{port}.{part}", self.memory_machine(path)) for part in ("addr", "en"))

        def formula(values):
            held = values[path] if words is None else words
            return held[values[address]] if values[enable] and values[address] < memory.depth else 0

        return formula

    def update(self, path):
        """The clock of a register, and the formula of what it takes with an edge."""
        instance, clock, condition, init = self.flat.registers[path]
        machine = self.cut.owner(instance)
        own = self.driver(path) if path in self.flat.drivers else lambda values: values[path]
        if condition is None:
            return self.flat.clock_input(clock), own
        test, first = self.formula(condition, machine), self.formula(init, machine)
        return self.flat.clock_input(clock), lambda values: first(values) if test(values) else own(values)

    def has_edge(self, clock, cycle):
        """Whether a Clock input of the top has an edge after a cycle."""
        m, d = self.ratios.get(clock, (1, 1))
        return (cycle + 1) * m // d > cycle * m // d

    def settled(self, state, inputs):
        """The values of all signals in a cycle."""
        values = {**state, **inputs}
        for entry in self.cut.bridges:
            values[entry["drives"][0]] = state[f"bridge:{entry['name']}"]
        for signal, formula in self.order:
            values[signal] = formula(values)
        return values

    def following(self, values, state, cycle):
        """The state after a cycle."""
        after = dict(state)
        for path, clock, formula in self.updates:
            if self.has_edge(clock, cycle):
                after[path] = formula(values)
        for path, (_, memory) in self.flat.memories.items():
            after[path] = self.written(path, memory, values, state[path], cycle)
        for data in self.late:
            path, port, memory = self.flat.data[data]
            if self.has_edge(self.flat.clock_input(f"{path}.{port}.clk"), cycle):
                after[data] = self.word(data, after[path] if memory.under == "new" else state[path])(values)
        for name in self.pipes:
            after[f"pipe:{name}"] = values[name]
        for entry in self.cut.bridges:
            after[f"bridge:{entry['name']}"] = values[self.read(entry["sees"][0], f"bridge:{entry['name']}")]
        return after

    def written(self, path, memory, values, words, cycle):
        """The words after a cycle."""
        words, machine = list(words), self.memory_machine(path)
        for port in memory.writers:
            address, enable, data, mask = (values[self.read(f"{path}.{port}.{part}", machine)] for part in ("addr", "en", "data", "mask"))
            if enable and mask and address < memory.depth and self.has_edge(self.flat.clock_input(f"{path}.{port}.clk"), cycle):
                words[address] = data
        return words

    def acts(self, values, cycle):
        """Whether a stop acts in a cycle."""
        return any(values[self.read(path, f"halt:{path}")] and self.has_edge(self.flat.clock_input(clock), cycle) for path, (_, clock) in self.flat.stops.items())

    def cycles(self, rows, at=0, state=None):
        """The values of each cycle from `at` on, and whether a stop acts there; and the state after it."""
        state = state or self.zeros()
        for cycle in range(at, len(rows)):
            values = self.settled(state, rows[cycle])
            state = self.following(values, state, cycle)
            yield values, self.acts(values, cycle), state

    def printed(self):
        """The outputs that are printed."""
        return [name for name in self.cut.outputs if name not in self.cut.seen]

    def rows_text(self, rows, at=0, state=None):
        """The output trace from a cycle and a state on."""
        names = self.printed()
        lines = [" ".join(["cycle", *names]) + "\n"]
        for cycle, (values, acts, _) in enumerate(self.cycles(rows, at, state), at):
            lines.append(" ".join([str(cycle), *(digits(self.flat.types[name], values[self.read(name, f"out:{name}")]) for name in names)]) + "\n")
            if acts:
                break
        return "".join(lines)

    def places(self):
        """What a snapshot may tell, in order: the beginning of the line, the key and the place in the state, and the type."""
        types = self.flat.types
        regs = [("reg", path, types[path]) for path in self.flat.registers]
        reads = [("read", path, types[path]) for path in self.late]
        for kind, path, ty in sorted(regs, key=lambda each: each[1].encode()) + sorted(reads, key=lambda each: each[1].encode()):
            yield f"{kind} {path} ", path, None, ty
        for name in sorted(self.pipes, key=str.encode):
            yield f"pipe {name} ", f"pipe:{name}", None, types[name]
        for path in sorted(self.flat.memories, key=str.encode):
            memory = self.flat.memories[path][1]
            for address in range(memory.depth):
                yield f"mem {path} {address} ", path, address, memory.type

    def snapshot(self, cycle, state):
        """The text of a snapshot."""
        lines = ["golden snapshot 1\n", f"cycle {cycle}\n"]
        for start, key, place, ty in self.places():
            value = state[key] if place is None else state[key][place]
            if value:
                lines.append(f"{start}{digits(ty, value)}\n")
        return "".join(lines)

    def saved(self, rows, at):
        """The snapshot before a cycle, and None; or None and the fault."""
        last, found = len(rows), self.zeros() if at == 0 else None
        for cycle, (_, acts, state) in enumerate(self.cycles(rows)):
            if acts and cycle + 1 < len(rows):
                last = cycle
                break
            if cycle + 1 == at:
                found = state
        return (None, f"S2 {at} {last}") if at > last else (self.snapshot(at, found), None)

    def read_snapshot(self, content):
        """The cycle and the state of a snapshot, and None; or None twice and the fault."""
        lines = content.decode("latin-1").split("\n")
        whole, rest = lines[:-1], lines[-1]
        state, places = self.zeros(), list(self.places())
        known, next_place = {start.encode().decode("latin-1"): k for k, (start, _, _, _) in enumerate(places)}, 0
        for number, line in enumerate(whole, 1):
            if number == 1:
                is_right = line == "golden snapshot 1"
            elif number == 2:
                cycle = line.removeprefix("cycle ")
                is_right = line.startswith("cycle ") and is_number(cycle) and int(cycle) <= MOST_CYCLES
            else:
                start, _, value = line.rpartition(" ")
                k = known.get(start + " ", -1)
                is_right = k >= next_place and self.take(state, places[k], value)
                next_place = k + 1
            if not is_right:
                return None, None, f"S1 line {number}"
        if rest or len(whole) < 2:
            return None, None, f"S1 line {len(whole) + 1}"
        return int(whole[1].removeprefix("cycle ")), state, None

    def take(self, state, place, value):
        """Puts a value into the state, if it is written as it has to be."""
        _, key, at, ty = place
        if not value or any(c not in "0123456789abcdef" for c in value) or digits(ty, int(value, 16)) != value or int(value, 16) == 0:
            return False
        if at is None:
            state[key] = fit(ty, int(value, 16))
        else:
            state[key][at] = fit(ty, int(value, 16))
        return True


def is_number(text):
    """Whether this is a number in decimal without leading zeros."""
    return text.isascii() and text.isdigit() and (text == "0" or text[0] != "0")
