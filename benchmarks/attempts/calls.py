"""What a call of golden ends with: its status, what it prints and its line on standard error. By docs/FORMATS.md; no code of golden is used."""
from ends import Ended
from partitions import cut_of, request_of
from runs import Reference
from steps import Network
from traces import rows_of

MASK = 2**32 - 1


def ended(call, flat, files):
    """The status, the text and the line of a call: a command with its numbers, the flat circuit, and the contents of its other files."""
    try:
        return 0, text_of(call, flat, files), ""
    except Ended as refused:
        return refused.args[0], "", refused.args[1]


def text_of(call, flat, files):
    """What a call prints."""
    cut = cut_of(flat, request_of(files["partition"]), call.get("capacity", 2), call["command"] in ("save", "resume"))
    if call["command"] == "check":
        return cut.text()
    rows, reference = rows_of(cut, files["trace"]), Reference(cut)
    return {"run": run, "replay": replay, "save": save, "resume": resume}[call["command"]](call, reference, rows, files)


def run(_call, reference, rows, _files):
    return reference.rows_text(rows)


def replay(_call, reference, rows, files):
    network = Network(reference.cut, len(rows))
    fault = network.replayed(files["steps"])
    if fault:
        raise Ended(9, fault)
    return network.text([values for values, _, _ in reference.cycles(rows)])


def save(call, reference, rows, _files):
    text, fault = reference.saved(rows, call["at"])
    if fault:
        raise Ended(10, f"snapshot: {fault}")
    return text


def resume(_call, reference, rows, files):
    at, state, fault = reference.read_snapshot(files["snapshot"])
    if fault:
        raise Ended(10, f"snapshot: {fault}")
    if at > len(rows):
        raise Ended(10, f"snapshot: S2 {at} {len(rows)}")
    return reference.rows_text(rows, at, state)


def demo(seed, size):
    """What `demo` prints."""
    registers, x, folded, y, z = [0] * size, seed, [0, 0], 0, 0
    for _ in range(4 * size):
        value = x
        for k, held in enumerate(registers):
            z, registers[k] = held, (value + held) & MASK
            value ^= held
        y, folded, x = value, [folded[0] ^ value, folded[1] ^ z], (1_664_525 * x + 1_013_904_223) & MASK
    machines, channels, rows = size + 4, 3 * size + 3, 4 * size
    return (
        f"demo seed {seed} size {size} cycles {rows}\nmachines {machines} channels {channels} steps {rows * (2 * channels + machines)}\n"
        f"last {y:08x} {z:08x}\nfold {folded[0]:08x} {folded[1]:08x}\n"
    )
