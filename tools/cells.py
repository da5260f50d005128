"""The cells of a netlist of yosys as expressions of golden's dialect.

A value is a list of atoms, the lowest bit first. An atom is "0", "1" or a pair of a signal's name and a bit's number. A signal
has at most LIMIT bits, so a longer value has several signals in it.
"""
from refused import Refused, info, place

LIMIT = 128


def literal(number, width):
    """A number as a literal."""
    return f'UInt<{width}>("h{number:x}")'


def runs(atoms):
    """The atoms cut into runs from the lowest: constants, bits of one signal in a row, one bit many times."""
    out = []
    for atom in atoms:
        last = out[-1] if out else None
        if last and isinstance(atom, str) and isinstance(last[0], str):
            last.append(atom)
        elif last and not isinstance(atom, str) and not isinstance(last[0], str) and follows(last, atom):
            last.append(atom)
        else:
            out.append([atom])
    return out


def follows(run, atom):
    """Whether the atom goes on with a run of bits: the next bit, or the one bit again."""
    name, number = run[-1]
    if atom == run[-1]:
        return len(run) == 1 or run[0] == atom
    return atom == (name, number + 1) and (len(run) == 1 or run[0] != run[-1])


def joined(texts):
    """The texts, the lowest first, under as few brackets as there may be."""
    if len(texts) == 1:
        return texts[0]
    half = len(texts) // 2
    return f"cat({joined(texts[half:])}, {joined(texts[:half])})"


class Cells:
    """Writes the nodes of one module."""

    def __init__(self, names, widths):
        self.names = names
        self.widths = widths
        self.lines = []

    def run_text(self, run):
        """One run as an expression."""
        if isinstance(run[0], str):
            return literal(int("".join(reversed(run)), 2), len(run))
        name, low = run[0]
        if len(run) > 1 and run[0] == run[1]:
            return f"asUInt(pad(asSInt({self.run_text(run[:1])}), {len(run)}))"
        if low == 0 and len(run) == self.widths[name]:
            return name
        return f"bits({name}, {run[-1][1]}, {low})"

    def text(self, atoms):
        """A value of at most LIMIT bits as an expression of the kind UInt and of its width."""
        return joined([self.run_text(run) for run in runs(atoms)])

    def node(self, hint, text, width, cell):
        """A node with this text. Returns its atoms."""
        name = self.names.new(hint)
        self.widths[name] = width
        self.lines.append(f"node {name} = {text}{info(cell)}")
        return [(name, k) for k in range(width)]

    def pieces(self, hint, width, make, cell, size=LIMIT):
        """A value made piece by piece: make(low, high) is the text of its bits from low to below high."""
        out = []
        for low in range(0, width, size):
            high = min(low + size, width)
            out += self.node(hint if width <= size else f"{hint}_{low // size}", make(low, high), high - low, cell)
        return out

    def write(self, hint, cell, ports):
        """The output of a cell, as atoms."""
        kind = cell["type"]
        for kinds, call in TABLE:
            if kind in kinds:
                return call(self, hint, cell, ports, kinds[kind])
        raise Refused(f"{place(cell)}: a cell {kind} of yosys has no form here")


def number_of(cell, name, other=0):
    """A parameter of a cell as a number; `other` if the cell has none of this name."""
    value = cell["parameters"].get(name, other)
    return value if isinstance(value, int) else int(value or "0", 2)


def resized(atoms, width, signed):
    """The value with another width: cut, or extended by zeros or by its sign."""
    more = width - len(atoms)
    if more <= 0:
        return atoms[:width]
    return atoms + [atoms[-1] if signed and atoms else "0"] * more


def is_signed(cell):
    """Whether all operands of the cell are signed."""
    keys = [key for key in ("A_SIGNED", "B_SIGNED") if key in cell["parameters"]]
    return bool(keys) and all(number_of(cell, key) for key in keys)


def bitwise(self, hint, cell, ports, form):
    """and, or, xor, xnor, not, the choice of a multiplexer, and a tri-state driver, which gives 0 where it is off."""
    width, signed = len(ports["Y"]), is_signed(cell)
    values = [resized(ports[key], width, signed) for key in ("A", "B") if key in ports]
    choice = "".join(self.text(ports[key]) for key in ("S", "EN") if key in ports)
    return self.pieces(hint, width, lambda low, high: form.format(*[self.text(v[low:high]) for v in values], s=choice), cell)


def alias(self, hint, cell, ports, form):
    """A cell that copies."""
    return resized(ports["A"], len(ports["Y"]), is_signed(cell))


def sum_of(self, hint, cell, ports, form):
    """add, sub and neg, modulo 2 to the width of the result; a long one by limbs with a carry."""
    width, signed = len(ports["Y"]), is_signed(cell)
    left, right = ports.get("A"), ports.get("B")
    if form == "neg":
        left, right, form = ["0"], left, "sub"
    left, right = resized(left, width, signed), resized(right, width, signed)
    if width < LIMIT:
        return self.node(hint, f"bits({form}({self.text(left)}, {self.text(right)}), {width - 1}, 0)", width, cell)
    out, carry, limb = [], ["1" if form == "sub" else "0"], LIMIT // 2
    for low in range(0, width, limb):
        one, two = self.text(left[low:low + limb]), self.text(right[low:low + limb])
        size = len(left[low:low + limb])
        two = f"not({two})" if form == "sub" else two
        part = self.node(f"{hint}_{low // limb}", f"bits(add(add({one}, {two}), {self.text(carry)}), {size}, 0)", size + 1, cell)
        out, carry = out + part[:-1], part[-1:]
    return out


def product(self, hint, cell, ports, form):
    """mul: the whole product where it fits, else that of the operands cut to the result's width."""
    width, signed = len(ports["Y"]), is_signed(cell)
    left, right = ports["A"], ports["B"]
    if len(left) + len(right) > LIMIT:
        left, right = resized(left, width, signed), resized(right, width, signed)
    size = len(left) + len(right)
    if size > LIMIT:
        raise Refused(f"{place(cell)}: a product of {len(left)} by {len(right)} bits; its width may be {LIMIT}")
    text = f"mul({kind(self.text(left), signed)}, {kind(self.text(right), signed)})"
    whole = self.node(f"{hint}_product" if size != width else hint, f"asUInt({text})" if signed else text, size, cell)
    return resized(whole, width, signed)


def kind(text, signed):
    """The text as an SInt, if it is to be signed."""
    return f"asSInt({text})" if signed else text


def quotient(self, hint, cell, ports, form):
    """div and mod. yosys gives an operand that is 0 no bits."""
    width, signed = len(ports["Y"]), is_signed(cell)
    left, right = ports["A"] or ["0"], ports["B"] or ["0"]
    if max(len(left), len(right)) >= LIMIT:
        raise Refused(f"{place(cell)}: a division of {LIMIT} bits or more")
    text = f"{form}({kind(self.text(left), signed)}, {kind(self.text(right), signed)})"
    size = len(left) + signed if form == "div" else min(len(left), len(right))
    whole = self.node(f"{hint}_{form}" if size != width else hint, f"asUInt({text})" if signed else text, size, cell)
    return resized(whole, width, signed)


def truth(self, hint, cell, ports, text):
    """A value of one bit, extended by zeros."""
    return resized(self.node(hint, text, 1, cell), len(ports["Y"]), False)


def folded(self, atoms, one, join):
    """A reduction, piece by piece."""
    texts = [f"{one}({self.text(atoms[low:low + LIMIT])})" for low in range(0, len(atoms), LIMIT)]
    while len(texts) > 1:
        texts[-2:] = [f"{join}({texts[-2]}, {texts[-1]})"]
    return texts[0] if len(atoms) > 1 else self.text(atoms)


def reduction(self, hint, cell, ports, form):
    """A test of one operand."""
    one, join, turned = form
    text = folded(self, ports["A"], one, join)
    return truth(self, hint, cell, ports, f"not({text})" if turned else text)


def logic(self, hint, cell, ports, form):
    """The logical and and or."""
    return truth(self, hint, cell, ports, f"{form}({folded(self, ports['A'], 'orr', 'or')}, {folded(self, ports['B'], 'orr', 'or')})")


def equality(self, hint, cell, ports, form):
    """eq and ne, piece by piece."""
    width, signed = max(len(ports["A"]), len(ports["B"])), is_signed(cell)
    left, right = resized(ports["A"], width, signed), resized(ports["B"], width, signed)
    texts = [f"{form}({self.text(left[low:low + LIMIT])}, {self.text(right[low:low + LIMIT])})" for low in range(0, width, LIMIT)]
    while len(texts) > 1:
        texts[-2:] = [f"{'and' if form == 'eq' else 'or'}({texts[-2]}, {texts[-1]})"]
    return truth(self, hint, cell, ports, texts[0])


def order(self, hint, cell, ports, form):
    """The four comparisons by size; long operands from the lowest piece up."""
    width, signed = max(len(ports["A"]), len(ports["B"])), is_signed(cell)
    left, right = resized(ports["A"], width, signed), resized(ports["B"], width, signed)
    if width <= LIMIT:
        return truth(self, hint, cell, ports, f"{form}({kind(self.text(left), signed)}, {kind(self.text(right), signed)})")
    if form in ("gt", "leq"):
        left, right = right, left
    text = ""
    for low in range(0, width, LIMIT):
        one, two = self.text(left[low:low + LIMIT]), self.text(right[low:low + LIMIT])
        top = signed and low + LIMIT >= width
        less = f"lt({kind(one, top)}, {kind(two, top)})"
        text = f"or({less}, and(eq({one}, {two}), {text}))" if text else less
    return truth(self, hint, cell, ports, f"not({text})" if form in ("geq", "leq") else text)


def shift(self, hint, cell, ports, form):
    """All shifts. One by a signed amount goes left where the amount is negative."""
    width, signed = len(ports["Y"]), bool(number_of(cell, "A_SIGNED"))
    value = resized(ports["A"], max(len(ports["A"]), width), signed)
    amount = ports["B"]
    fill = value[-1] if form == "sshr" and signed else "0"
    if form in ("left", "right", "sshr"):
        return moved(self, hint, cell, value, amount, form == "left", fill)[:width]
    right = moved(self, hint, cell, value, amount, False, "0")[:width]
    if not number_of(cell, "B_SIGNED"):
        return right
    minus = self.node(f"{hint}_minus", f"asUInt(neg(asSInt({self.text(amount)})))", len(amount) + 1, cell)
    left = moved(self, hint, cell, value, minus[:-1], True, "0")[:width]
    make = lambda low, high: f"mux({self.text(amount[-1:])}, {self.text(left[low:high])}, {self.text(right[low:high])})"
    return self.pieces(hint, width, make, cell)


def moved(self, hint, cell, value, amount, left, fill):
    """The value shifted: by one operation where its width fits, else by a row of multiplexers."""
    width = len(value)
    text, by = (self.text(value) if width <= LIMIT else ""), self.text(amount) if len(amount) <= LIMIT else ""
    if width <= LIMIT and by and not left:
        done = f"asUInt(dshr(asSInt({text}), {by}))" if fill != "0" else f"dshr({text}, {by})"
        return self.node(hint, done, width, cell)
    if width <= LIMIT and len(amount) < 8 and width + 2 ** len(amount) - 1 <= LIMIT:
        return self.node(hint, f"bits(dshl({text}, {by}), {width - 1}, 0)", width, cell)
    count = max(width - 1, 1).bit_length()
    if len(amount) > count:
        amount = amount[:count] + self.node(f"{hint}_far", folded(self, amount[count:], "orr", "or"), 1, cell)
    for k, bit in enumerate(amount):
        step = width if k == count else min(2 ** k, width)
        next_value = [fill] * step + value[:width - step] if left else value[step:] + [fill] * step
        make = lambda low, high, now=value: f"mux({self.text([bit])}, {self.text(next_value[low:high])}, {self.text(now[low:high])})"
        value = self.pieces(f"{hint}_by_{k}", width, make, cell)
    return value


BITWISE = {"$and": "and({}, {})", "$or": "or({}, {})", "$xor": "xor({}, {})", "$xnor": "not(xor({}, {}))", "$not": "not({})",
           "$mux": "mux({s}, {1}, {0})"}
TRISTATE = {"$tribuf": "mux({s}, {0}, UInt<1>(\"h0\"))"}
TABLE = [
    (BITWISE, bitwise),
    (TRISTATE, bitwise),
    ({"$pos": "", "$buf": ""}, alias),
    ({"$add": "add", "$sub": "sub", "$neg": "neg"}, sum_of),
    ({"$mul": ""}, product),
    ({"$div": "div", "$mod": "rem"}, quotient),
    ({"$reduce_and": ("andr", "and", False), "$reduce_or": ("orr", "or", False), "$reduce_bool": ("orr", "or", False),
      "$reduce_xor": ("xorr", "xor", False), "$reduce_xnor": ("xorr", "xor", True), "$logic_not": ("orr", "or", True)}, reduction),
    ({"$logic_and": "and", "$logic_or": "or"}, logic),
    ({"$eq": "eq", "$eqx": "eq", "$ne": "neq", "$nex": "neq"}, equality),
    ({"$lt": "lt", "$le": "leq", "$gt": "gt", "$ge": "geq"}, order),
    ({"$shl": "left", "$sshl": "left", "$shr": "right", "$sshr": "sshr", "$shift": "both", "$shiftx": "both"}, shift),
]
