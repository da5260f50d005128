"""The ports of a circuit's top, and the rows of a trace: what the tools for waveforms share."""
import re
from refused import Refused

PORT = re.compile(r"\s*(input|output)\s+(\w[\w$]*)\s*:\s*(Clock|[US]Int<\s*(\d+)\s*>)")


def lines_of(name):
    """The lines of a circuit without remarks."""
    with open(name) as file:
        return [line.split(";")[0] for line in file]


def top_of(name):
    """The name of a circuit's top, which is the circuit's."""
    heads = [re.match(r"\s*circuit\s+(\w[\w$]*)", line) for line in lines_of(name)]
    top = next((head.group(1) for head in heads if head), None)
    if top is None:
        raise Refused(f"{name}: there is no line with circuit")
    return top


def ports_of(name):
    """The ports of the top: for each its name, "input", "output" or "clock", and its width."""
    top, out, inside = top_of(name), [], False
    for line in lines_of(name):
        head = re.match(r"\s*(?:public\s+)?module\s+(\w[\w$]*)\s*:", line)
        inside = head.group(1) == top if head else inside
        port = PORT.match(line) if inside else None
        if port:
            out.append((port.group(2), "clock" if port.group(3) == "Clock" else port.group(1), int(port.group(4) or 1)))
    if not out:
        raise Refused(f"{name}: the top has no ports")
    return out


def rows_of(name):
    """The names of a trace, and for each of its cycles the row of texts."""
    with open(name) as file:
        rows = [line.split() for line in file]
    if not rows or rows[0][:1] != ["cycle"]:
        raise Refused(f"{name}: the first line doesn't begin with cycle")
    try:
        return rows[0][1:], {int(row[0]): row[1:] for row in rows[1:] if row}
    except ValueError:
        raise Refused(f"{name}: a row doesn't begin with the number of its cycle")
