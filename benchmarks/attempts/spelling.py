"""The text of a circuit: one of the spellings that docs/FORMATS.md allows, chosen at random."""
from circuits import CLOCK

RADIX = {"b": "b", "o": "o", "h": "x"}


class Speller:
    """Writes modules as lines."""

    def __init__(self, numbers):
        self.numbers, self.lines = numbers, []

    def literal(self, ty, number):
        """A literal: a text, or a number with its radix or without."""
        sign, size, letter = "-" if number < 0 else "", abs(number), self.numbers.choice("boh")
        digits = format(size, RADIX[letter])
        digits = self.numbers.choice([digits, digits.upper(), "0" + digits])
        forms = [f'"{letter}{sign}{digits}"', f"{sign}{size}", f"{sign}0{letter}{digits}", f"0{letter}{sign}{digits}", f"{sign}0d{size}"]
        return f"{ty[0]}Int<{ty[1]}>({self.numbers.choice(forms)})"

    def expression(self, made):
        """An expression."""
        if made[0] == "literal":
            return self.literal(made[1], made[2])
        if made[0] == "ref":
            return made[1]
        return f"{made[1]}({', '.join([*map(self.expression, made[2]), *map(str, made[3])])})"

    def type(self, ty):
        """A type."""
        return "Clock" if ty == CLOCK else f"{ty[0]}Int<{ty[1]}>"

    def put(self, line):
        """A line, with what may stand around it."""
        more = ["", "", "", "", " @[Made.scala 1:2]", " ; a comment", " @[a\\] b] ; @["]
        self.lines.append(self.numbers.choice(["", "  ", "\t", "    "]) + line + self.numbers.choice(more))
        if self.numbers.random() < 0.05:
            self.lines.append(self.numbers.choice(["", "   ", "; only a comment"]))

    def statement(self, kind, *parts):
        """A statement, on one line or more."""
        getattr(self, kind)(*parts)

    def wire(self, name, ty):
        self.put(f"wire {name} : {self.type(ty)}")

    def node(self, name, made):
        self.put(f"node {name} = {self.expression(made)}")

    def reg(self, name, ty, clock, condition, init):
        head = f"reg {name} : {self.type(ty)}, {clock}"
        if condition is None:
            self.put(head)
            return
        pair = f"{self.expression(condition)}, {self.expression(init)}"
        form = self.numbers.randrange(3)
        if form == 0:
            self.put(f"regreset {name} : {self.type(ty)}, {clock}, {pair}")
        elif form == 1:
            self.put(f"{head} with : (reset => ({pair}))")
        else:
            self.put(f"{head} with :")
            self.put(f"reset => ({pair})")

    def inst(self, name, module):
        self.put(f"inst {name} of {module}")

    def mem(self, name, memory):
        fields = [f"data-type => {self.type(memory.type)}", f"depth => {memory.depth}", f"read-latency => {memory.latency}", "write-latency => 1"]
        fields += [f"{word} => {' '.join(ports)}" for word, ports in (("reader", memory.readers), ("writer", memory.writers)) if ports]
        fields += [f"read-under-write => {memory.under}"] * (memory.under is not None)
        self.numbers.shuffle(fields)
        for line in [f"mem {name} :", *fields]:
            self.put(line)

    def connect(self, sink, made):
        forms = [f"{sink} is invalid", f"invalidate {sink}"]
        if made is not None:
            forms = [f"{sink} <= {self.expression(made)}", f"connect {sink}, {self.expression(made)}"]
        self.put(self.numbers.choice(forms))

    def stop(self, clock, condition):
        self.put(f"stop({clock}, {self.expression(condition)}, {self.numbers.randrange(9)}){self.numbers.choice(['', ' : done'])}")

    def module(self, module):
        """A module with all that it has."""
        self.put(f"{self.numbers.choice(['', '', 'public '])}module {module.name} :")
        for way, name, ty in module.ports:
            self.put(f"{way} {name} : {self.type(ty)}")
        for statement in module.body:
            self.statement(*statement)


def circuit_lines(numbers, modules):
    """The lines of a circuit whose top is the last of these modules. They stand in any order, the top last."""
    speller = Speller(numbers)
    if numbers.random() < 0.3:
        speller.put(numbers.choice(["FIRRTL version 1.2.0", "FIRRTL version 4.0.0"]))
    speller.put("circuit Top :")
    others = modules[:-1]
    numbers.shuffle(others)
    for module in [*others, modules[-1]]:
        speller.module(module)
    return speller.lines


def text_of(numbers, lines):
    """The bytes of these lines."""
    end = numbers.choice(["\n", "\n", "\r\n"])
    return (end.join(lines) + (end if numbers.random() < 0.8 else "")).encode()
