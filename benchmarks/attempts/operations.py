"""The operations of a circuit on whole numbers, by docs/FORMATS.md. A type is a pair of "U", "S" or "C" (a Clock) and a width."""

MOST = 128
COMPARED = {"lt": "<", "leq": "<=", "gt": ">", "geq": ">=", "eq": "==", "neq": "!="}
ONE_VALUE = ["asUInt", "asSInt", "cvt", "neg", "not", "andr", "orr", "xorr"]
TWO_VALUES = ["add", "sub", "mul", "div", "rem", *COMPARED, "and", "or", "xor", "cat"]
WITH_NUMBERS = ["pad", "shl", "shr", "bits", "head", "tail"]


def pattern(ty, number):
    """The bits of a number, as a number that isn't negative."""
    return number & (1 << ty[1]) - 1


def fit(ty, number):
    """The number that these bits have in a type."""
    bits = pattern(ty, number)
    return bits - (1 << ty[1]) if ty[0] == "S" and bits >> ty[1] - 1 else bits


def digits(ty, number):
    """A value as golden writes it."""
    return f"{pattern(ty, number):0{(ty[1] + 3) // 4}x}"


def result(name, types, numbers):
    """The type of a result."""
    kind, width = types[0]
    other = types[1][1] if len(types) > 1 else 0
    if name in COMPARED or name in ("andr", "orr", "xorr"):
        return "U", 1
    wide = {
        "add": max(width, other) + 1, "sub": max(width, other) + 1, "mul": width + other, "div": width + (kind == "S"), "rem": min(width, other),
        "asUInt": width, "asSInt": width, "dshr": width, "cvt": width + (kind == "U"), "neg": width + 1, "not": width,
        "and": max(width, other), "or": max(width, other), "xor": max(width, other), "cat": width + other, "validif": other, "mux": other,
    }
    by_number = {"pad": lambda n: max(width, n), "shl": lambda n: width + n, "shr": lambda n: max(width - n, 1), "head": lambda n: n, "tail": lambda n: width - n}
    if name == "mux":
        return types[1][0], max(types[1][1], types[2][1])
    if name == "bits":
        return "U", numbers[0] - numbers[1] + 1
    if name == "dshl":
        return kind, width + 2**other - 1
    if name == "validif":
        return types[1]
    kinds = {"asUInt": "U", "asSInt": "S", "cvt": "S", "neg": "S", "not": "U", "and": "U", "or": "U", "xor": "U", "cat": "U", "head": "U", "tail": "U"}
    return kinds.get(name, kind), by_number[name](numbers[0]) if name in by_number else wide[name]


def quotient(a, b):
    """Cut towards zero; 0 where the divisor is 0."""
    if b == 0:
        return 0
    return abs(a) // abs(b) * (1 if (a < 0) == (b < 0) else -1)


def compared(name, a, b):
    """A comparison, as 0 or 1."""
    return int({"<": a < b, "<=": a <= b, ">": a > b, ">=": a >= b, "==": a == b, "!=": a != b}[COMPARED[name]])


def whole(name, types, values, numbers):
    """The number of which a result has the lower bits."""
    a, b = values[0], values[1] if len(values) > 1 else 0
    bits, width = pattern(types[0], a), types[0][1]
    if name in COMPARED:
        return compared(name, a, b)
    if name == "mux":
        return b if a else values[2]
    if name == "rem":
        return a - b * quotient(a, b) if b else 0
    if name == "cat":
        return bits << types[1][1] | pattern(types[1], b)
    if name in ("shl", "shr", "bits", "head", "pad"):
        n = numbers[0]
        return {"shl": a << n, "shr": a >> n, "head": bits >> max(width - n, 0), "pad": a, "bits": bits >> numbers[-1]}[name]
    simple = {
        "add": lambda: a + b, "sub": lambda: a - b, "mul": lambda: a * b, "div": lambda: quotient(a, b), "dshl": lambda: a << b, "dshr": lambda: a >> b,
        "neg": lambda: -a, "not": lambda: ~a, "and": lambda: a & b, "or": lambda: a | b, "xor": lambda: a ^ b, "tail": lambda: bits, "validif": lambda: b,
        "andr": lambda: int(bits == (1 << width) - 1), "orr": lambda: int(bits != 0), "xorr": lambda: bin(bits).count("1") % 2,
    }
    return simple.get(name, lambda: a)()


def apply(name, types, values, numbers):
    """The value of a result."""
    return fit(result(name, types, numbers), whole(name, types, values, numbers))
