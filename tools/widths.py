"""The type of an expression of golden's dialect, by the table of operations of docs/FORMATS.md."""
import re

from refused import Refused

TOKEN = re.compile(r"\s*(?:([US]Int<\s*\d+\s*>)\s*\([^)]*\)|([A-Za-z_][\w$]*(?:\.\w[\w$]*)*)|(\d+)|([(),]))")
SAME = lambda kind, *widths: (kind, max(widths))
ONE = lambda kind, *widths: ("UInt", 1)
FORMS = {
    "add": lambda kind, a, b: (kind, max(a, b) + 1), "sub": lambda kind, a, b: (kind, max(a, b) + 1), "mul": lambda kind, a, b: (kind, a + b),
    "div": lambda kind, a, b: (kind, a + (kind == "SInt")), "rem": lambda kind, a, b: (kind, min(a, b)), "pad": SAME,
    "asUInt": lambda kind, a: ("UInt", a), "asSInt": lambda kind, a: ("SInt", a), "shl": lambda kind, a, n: (kind, a + n),
    "shr": lambda kind, a, n: (kind, max(a - n, 1)), "dshl": lambda kind, a, b: (kind, a + 2 ** b - 1), "dshr": lambda kind, a, b: (kind, a),
    "cvt": lambda kind, a: ("SInt", a + (kind == "UInt")), "neg": lambda kind, a: ("SInt", a + 1), "not": lambda kind, a: ("UInt", a),
    "cat": lambda kind, a, b: ("UInt", a + b), "bits": lambda kind, a, high, low: ("UInt", high - low + 1),
    "head": lambda kind, a, n: ("UInt", n), "tail": lambda kind, a, n: ("UInt", a - n),
    **dict.fromkeys(("and", "or", "xor"), lambda kind, a, b: ("UInt", max(a, b))),
    **dict.fromkeys(("lt", "leq", "gt", "geq", "eq", "neq", "andr", "orr", "xorr"), ONE),
}


def type_of(text, look):
    """The type of an expression; `look` has those of names."""
    tokens = [found.groups() for found in TOKEN.finditer(text)]
    try:
        kind, width = operand(tokens, look)
    except (IndexError, TypeError):
        raise Refused(f"the type of {text} isn't found")
    return f"{kind}<{width}>" if kind != "Clock" else kind


def operand(tokens, look):
    """The kind and the width of the expression that the tokens begin with; of a number the number."""
    literal, name, number, _ = tokens.pop(0)
    if number:
        return None, int(number)
    if name and tokens and tokens[0][3] == "(":
        return operation(name, tokens, look)
    kind = literal or look(name)
    if kind is None:
        raise Refused(f"the type of {name} isn't found")
    return (kind[:4], int(kind[5:-1])) if kind != "Clock" else ("Clock", 0)


def operation(name, tokens, look):
    """The same of an operation, whose name is taken already."""
    values = []
    while tokens.pop(0)[3] != ")":
        values.append(operand(tokens, look))
    if name in ("mux", "validif"):
        values, name = values[1:], "pad"
    if name not in FORMS:
        raise Refused(f"there is no operation {name}")
    return FORMS[name](values[0][0], *[width for _, width in values])
