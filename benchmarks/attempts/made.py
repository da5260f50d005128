"""Random circuits. All random choices come from the generator that is handed in, so a number makes the same files each time."""
from circuits import BIT, CLOCK, Flat, Memory, Module
from operations import MOST, ONE_VALUE, TWO_VALUES, fit, result

MOST_LEVELS = 3

# Words of the language, which may be names too.
WORDS = (
    "circuit module public input output wire node reg regreset inst mem connect invalidate skip stop printf is invalid with reset of UInt SInt Clock "
    "mux validif add bits old new undefined reader writer depth addr en data mask clk cycle hub in out pipe _ a$b b0 h1 x0 E"
).split()


class Maker:
    """Makes one module: what may be read so far, of that what no loop goes through, and the sinks that wait for a connection."""

    def __init__(self, numbers, name, below_it):
        self.numbers, self.module, self.below_it = numbers, Module(name), below_it
        self.known, self.settled, self.clocks, self.sinks, self.count, self.taken = [], [], [], [], 0, set()

    def fresh(self, letter):
        """A new name: a word of the language, or a letter and a number."""
        word = self.numbers.choice(WORDS)
        if self.numbers.random() < 0.15 and word not in self.taken:
            self.taken.add(word)
            return word
        self.count += 1
        return f"{letter}{self.count}"

    def type(self):
        """A type, mostly narrow."""
        width = self.numbers.choice([1, 1, 2, 3, 4, 7, 8, 8, 8, 16, 31, 32, 64, 65, 127, 128])
        return self.numbers.choice("UUUS"), width

    def literal(self):
        """A literal with any value of its type."""
        ty = self.type()
        return "literal", ty, fit(ty, self.numbers.choice([0, 1, -1, 2**127, self.numbers.getrandbits(128)]))

    def type_of(self, expression):
        """The type of an expression of this module."""
        if expression[0] == "literal":
            return expression[1]
        return self.types[expression[1]] if expression[0] == "ref" else result(expression[1], [self.type_of(part) for part in expression[2]], expression[3])

    @property
    def types(self):
        """The types of what may be read."""
        return dict(self.known)

    def leaf(self, names):
        """A literal or something that may be read."""
        return ("ref", self.numbers.choice(names)[0]) if names and self.numbers.random() < 0.85 else self.literal()

    def expression(self, depth, names):
        """An expression over these names."""
        if depth == 0 or self.numbers.random() < 0.2:
            return self.leaf(names)
        name = self.numbers.choice([*ONE_VALUE, *TWO_VALUES, *TWO_VALUES, "pad", "shl", "shr", "bits", "head", "tail", "dshl", "dshr", "mux", "mux", "mux", "validif"])
        parts = [self.expression(depth - 1, names) for _ in range({"mux": 3}.get(name, 2 if name in (*TWO_VALUES, "dshl", "dshr", "validif") else 1))]
        made = "call", name, *self.fitting(name, parts)
        return made if 1 <= self.type_of(made)[1] <= MOST else self.leaf(names)

    def fitting(self, name, parts):
        """Operands and numbers that an operation takes."""
        if name in ("mux", "validif"):
            parts[0] = self.cut(parts[0], BIT)
        if name in ("dshl", "dshr"):
            parts[1] = self.cut(parts[1], ("U", self.numbers.randint(1, 3)))
        if name in TWO_VALUES or name == "mux":
            parts[-2] = self.of_kind(parts[-2], self.type_of(parts[-1])[0])
        width = self.type_of(parts[0])[1]
        high = self.numbers.randrange(width)
        numbers = {"bits": [high, self.numbers.randint(0, high)], "head": [high + 1], "tail": [high], "pad": [self.numbers.randint(0, MOST)]}
        return parts, numbers.get(name, [self.numbers.choice([0, 1, 3, width, 200])] if name == "shr" else [self.numbers.randint(0, 9)] if name == "shl" else [])

    def of_kind(self, expression, kind):
        """The same bits as a value of this kind."""
        return expression if self.type_of(expression)[0] == kind else ("call", f"as{kind}Int", [expression], [])

    def cut(self, expression, ty):
        """What may be connected to a sink of this type."""
        width = self.type_of(expression)[1]
        if width > ty[1]:
            low = self.numbers.randint(0, width - ty[1])
            expression = "call", "bits", [expression], [low + ty[1] - 1, low]
        return self.of_kind(expression, ty[0])

    def add_ports(self, is_top):
        """The ports: clocks, inputs and outputs."""
        for _ in range(self.numbers.choice([1, 1, 1, 2, 3]) if is_top else self.numbers.choice([0, 1, 1, 2])):
            name = self.fresh("clock")
            self.module.ports.append(("input", name, CLOCK))
            self.clocks.append(name)
        for _ in range(self.numbers.randint(0, 3)):
            self.port("input", self.fresh("x"), self.type())
        for _ in range(self.numbers.randint(1, 3)):
            self.port("output", self.fresh("y"), self.type())
        self.numbers.shuffle(self.module.ports)

    def port(self, way, name, ty):
        """One port."""
        self.module.ports.append((way, name, ty))
        self.known.append((name, ty))
        if way == "input":
            self.settled.append((name, ty))
        else:
            self.sinks.append((name, ty))

    def add_reg(self):
        """A register, with or without a reset; one in four keeps its value."""
        name, ty = self.fresh("r"), self.type()
        condition = init = None
        if self.numbers.random() < 0.4:
            condition, init = self.cut(self.expression(1, self.known), BIT), self.cut(self.expression(1, self.known), ty)
        self.module.body.append(("reg", name, ty, self.numbers.choice(self.clocks), condition, init))
        self.known.append((name, ty))
        self.settled.append((name, ty))
        if self.numbers.random() < 0.9:
            self.sinks.append((name, ty))

    def add_mem(self):
        """A memory with some ports."""
        name, latency = self.fresh("m"), self.numbers.randint(0, 1)
        readers, writers = ([f"{letter}{k}" for k in range(self.numbers.randint(0, 2))] for letter in "rw")
        memory = Memory(self.type(), self.numbers.choice([1, 2, 3, 4, 5, 8, 9]), latency, readers, writers, self.numbers.choice([None, "old", "new", "undefined"]))
        self.module.body.append(("mem", name, memory))
        for port, part, ty, is_driven in memory.fields():
            self.add_field(f"{name}.{port}.{part}", ty, is_driven, latency)

    def add_field(self, name, ty, is_driven, latency):
        """One field of a memory's port."""
        if ty == CLOCK:
            self.module.body.append(("connect", name, ("ref", self.numbers.choice(self.clocks))))
            return
        self.known.append((name, ty))
        if is_driven:
            self.sinks.append((name, ty))
        elif latency:
            self.settled.append((name, ty))

    def add_inst(self):
        """An instance of a module below."""
        module, name = self.numbers.choice(self.below_it), self.fresh("i")
        if not self.clocks and any(ty == CLOCK for _, _, ty in module.ports):
            return
        self.module.body.append(("inst", name, module.name))
        for way, port, ty in module.ports:
            if ty == CLOCK:
                self.module.body.append(("connect", f"{name}.{port}", ("ref", self.numbers.choice(self.clocks))))
            else:
                self.known.append((f"{name}.{port}", ty))
                if way == "input":
                    self.sinks.append((f"{name}.{port}", ty))

    def add_other(self):
        """A node, a wire, a clock by another name, or a stop."""
        kind = self.numbers.random()
        if kind < 0.6:
            name, driver = self.fresh("n"), self.expression(3, self.known)
            self.module.body.append(("node", name, driver))
            self.known.append((name, self.type_of(driver)))
        elif kind < 0.85:
            name, ty = self.fresh("w"), self.type()
            self.module.body.append(("wire", name, ty))
            self.known.append((name, ty))
            self.sinks.append((name, ty))
        elif self.clocks and kind < 0.93:
            name = self.fresh("clock")
            self.module.body.append(("node", name, ("ref", self.numbers.choice(self.clocks))))
            self.clocks.append(name)
        elif self.clocks:
            wide = self.cut(self.expression(2, self.known), ("U", 3))
            self.module.body.append(("stop", self.numbers.choice(self.clocks), ("call", "eq", [wide, ("literal", ("U", 3), self.numbers.randrange(8))], [])))

    def connect_all(self):
        """Connects each sink. Most are computed from what no loop goes through; some are bare names."""
        for sink, ty in self.sinks:
            same = [(name, other) for name, other in self.known if other == ty and name != sink]
            if self.numbers.random() < 0.05:
                driver = None
            elif same and self.numbers.random() < 0.45:
                driver = "ref", self.numbers.choice(same)[0]
            else:
                names = self.known if self.numbers.random() < 0.3 else self.settled
                driver = self.cut(self.expression(self.numbers.randint(0, 3), names), ty)
            self.module.body.append(("connect", sink, driver))

    def make(self, is_top):
        """The module."""
        self.add_ports(is_top)
        for _ in range(self.numbers.randint(1, 6)):
            ways = [self.add_other] * 2 + [self.add_reg] * 2 * bool(self.clocks) + [self.add_inst] * 3 * bool(self.below_it) + [self.add_mem] * bool(self.clocks)
            self.numbers.choice(ways)()
        self.connect_all()
        return self.module


def modules_of(numbers):
    """The modules of a circuit, the top last, and the flat circuit. There may be a loop."""
    modules = []
    for level in range(numbers.randint(1, MOST_LEVELS)):
        for k in range(numbers.randint(1, 2)):
            modules.append(Maker(numbers, f"M{level}{k}", list(modules)).make(False))
    modules.append(Maker(numbers, "Top", list(modules)).make(True))
    return modules, Flat(modules, "Top")


def circuit(numbers):
    """The modules and the flat circuit of a circuit without a loop, which isn't large."""
    while True:
        modules, flat = modules_of(numbers)
        if len(flat.types) <= 300 and flat.loop() is None:
            return modules, flat
