"""A circuit in its modules, and the flat circuit that they make.

An expression is ("ref", name), ("literal", type, number) or ("call", operation, operands, numbers). A statement is ("wire", name, type),
("node", name, expression), ("reg", name, type, clock, condition, init) with None for a reset that isn't there, ("inst", name, module),
("mem", name, memory), ("connect", sink, expression) with None for an invalid one, or ("stop", clock, condition)."""
from dataclasses import dataclass, field

from operations import result

CLOCK, BIT = ("C", 0), ("U", 1)


@dataclass
class Memory:
    """A memory; `under` is what it says of reads under a write, or None."""
    type: tuple
    depth: int
    latency: int
    readers: list
    writers: list
    under: str | None

    def fields(self):
        """The fields of its ports: port, field, type, and whether it is driven."""
        address = ("U", max(1, (self.depth - 1).bit_length()))
        for port in self.readers + self.writers:
            writes = port in self.writers
            yield from ((port, "addr", address, True), (port, "en", BIT, True), (port, "clk", CLOCK, True), (port, "data", self.type, writes))
            if writes:
                yield port, "mask", BIT, True


@dataclass
class Module:
    """A module: its ports (direction, name, type) and its statements in order."""
    name: str
    ports: list = field(default_factory=list)
    body: list = field(default_factory=list)


def below(path, name):
    """The path of what an instance has."""
    return f"{path}.{name}" if path else name


def references(expression):
    """The names in an expression."""
    if expression is None or expression[0] == "literal":
        return []
    return [expression[1]] if expression[0] == "ref" else [name for part in expression[2] for name in references(part)]


def placed(expression, path):
    """An expression with the paths of its names."""
    if expression is None or expression[0] == "literal":
        return expression
    if expression[0] == "ref":
        return "ref", below(path, expression[1])
    return "call", expression[1], [placed(part, path) for part in expression[2]], expression[3]


class Flat:
    """The flat circuit: by path the types of signals, their drivers (the instance whose text has it, and the expression), the instances with
    their modules, the registers, the memories with their instances, the readers' data, and the stops with their clocks."""

    def __init__(self, modules, top):
        self.modules = {module.name: module for module in modules}
        self.types, self.drivers, self.instances, self.registers, self.memories, self.data, self.stops = {}, {}, {}, {}, {}, {}, {}
        self.enter("", self.modules[top])

    def enter(self, path, module):
        """Takes an instance with all below it."""
        self.instances[path] = module
        for _, name, ty in module.ports:
            self.types[below(path, name)] = ty
        for statement in module.body:
            getattr(self, statement[0])(path, *statement[1:])
        for statement in module.body:
            if statement[0] == "inst":
                self.enter(below(path, statement[1]), self.modules[statement[2]])

    def wire(self, path, name, ty):
        self.types[below(path, name)] = ty

    def node(self, path, name, expression):
        driver = placed(expression, path)
        self.drivers[below(path, name)] = path, driver
        self.types[below(path, name)] = self.type_of(driver)

    def reg(self, path, name, ty, clock, condition, init):
        self.types[below(path, name)] = ty
        self.registers[below(path, name)] = path, clock and below(path, clock), placed(condition, path), placed(init, path)

    def inst(self, path, name, module):
        for _, port, ty in self.modules[module].ports:
            self.types[below(path, f"{name}.{port}")] = ty

    def mem(self, path, name, memory):
        self.memories[below(path, name)] = path, memory
        for port, part, ty, is_driven in memory.fields():
            self.types[below(path, f"{name}.{port}.{part}")] = ty
            if not is_driven:
                self.data[below(path, f"{name}.{port}.{part}")] = below(path, name), port, memory

    def connect(self, path, sink, expression):
        self.drivers[below(path, sink)] = path, placed(expression, path)

    def stop(self, path, clock, condition):
        name = below(path, f"stop:{sum(at[0] == path for at in self.stops.values())}")
        self.types[name] = BIT
        self.drivers[name] = path, placed(condition, path)
        self.stops[name] = path, below(path, clock)

    def type_of(self, expression):
        """The type of an expression with paths."""
        if expression[0] == "literal":
            return expression[1]
        if expression[0] == "ref":
            return self.types[expression[1]]
        return result(expression[1], [self.type_of(part) for part in expression[2]], expression[3])

    def clock_input(self, path):
        """The Clock input of the top that a Clock follows."""
        while path in self.drivers:
            path = self.drivers[path][1][1]
        return path

    def within(self, signal):
        """The signals that one reads within a cycle."""
        if signal in self.registers:
            return []
        if signal in self.data:
            path, port, memory = self.data[signal]
            return [f"{path}.{port}.addr", f"{path}.{port}.en"] if memory.latency == 0 else []
        return references(self.drivers[signal][1]) if signal in self.drivers else []

    def loop(self):
        """A combinational loop, or None."""
        done, trail = set(), []

        def visit(signal):
            if signal in trail:
                return trail[trail.index(signal):]
            if signal in done or self.types[signal] == CLOCK:
                return None
            trail.append(signal)
            for other in self.within(signal):
                found = visit(other)
                if found:
                    return found
            trail.pop()
            done.add(signal)
            return None

        return next((found for found in map(visit, self.types) if found), None)
