"""One fault in a circuit, a partition, or any bytes: of a circuit's fault the line that golden has to report is known."""
from circuits import CLOCK

KEYS = ["units", "share", "memories", "capacity", "direct", "pipe", "clocks", "bridges"]
MEMORY = ["mem zz :", "data-type => UInt<1>", "read-latency => 0", "write-latency => 1"]
DEEP = "not(" * 257 + "UInt<1>(0)" + ")" * 257

# Lines behind a circuit, each with the place of the line at fault among them, and what is reported; {} is the line's number.
BEHIND = [
    (["node zz = UInt<1>(0)", "node zz = UInt<1>(0)"], 1, "F2 line {} zz"),
    (["node zz = nowhere"], 0, "F3 line {} nowhere"),
    (["inst zz of Nothing"], 0, "F3 line {} Nothing"),
    (["wire zz : UInt<1>", "zz <= UInt<1>(0)", "zz is invalid"], 2, "F4 line {} zz"),
    (["wire zz : UInt<1>"], 0, "F5 line {} zz"),
    (["node zz = UInt<1>(0)", "invalidate zz"], 1, "F6 line {} zz"),
    ([*MEMORY, "depth => 0"], 0, "F8 line {} depth"),
    ([*MEMORY, "depth => 1", "read-under-write => old", "read-under-write => old"], 0, "F8 line {} read-under-write"),
    (["node zz = add(UInt<1>(0), SInt<1>(0))"], 0, "F9 line {} add"),
    (["wire zz : SInt<1>", "zz <= UInt<1>(0)"], 1, "F9 line {} connect"),
    (["node zz = shl(UInt<128>(0), 1)"], 0, "F10 line {} 129"),
    (["node zz = dshl(UInt<8>(0), UInt<33>(0))"], 0, "F10 line {} 4294967295"),
    (["node zz = bits(UInt<4>(0), 4, 0)"], 0, "F11 line {} bits"),
    (["node zz = UInt<2>(4)"], 0, "F12 line {}"),
    (["node zz = SInt<4>(0hd)"], 0, "F12 line {}"),
    (["wire zz : UInt<1>", "zz <= UInt<2>(0)"], 1, "F13 line {} 2 1"),
    (["wire zz : Clock", "zz is invalid"], 1, "F14 line {} zz"),
    ([*MEMORY, "depth => 65537"], 0, "F15 memory 65537"),
    (["wire zz : UInt<1>", "wire yy : UInt<1>", "zz <= yy", "yy <= not(zz)"], 0, "F16 yy zz"),
    (["node zz 1"], 0, "syntax line {}"),
    (["node zz = 'a'"], 0, "syntax line {}"),
    (["when zz :"], 0, "outside line {} when"),
    ([f"node zz = {DEEP}"], 0, "too deep line {}"),
]


def circuit_fault(numbers, lines, top):
    """The lines of a circuit with one fault more, and what is reported."""
    form = numbers.randrange(len(BEHIND) + 2)
    if form == len(BEHIND):
        return [line.replace("circuit Top :", "circuit Nothing :") for line in lines], "F1 Nothing"
    if form == len(BEHIND) + 1:
        inputs = [f"zz.{name} <= {name}" if ty == CLOCK else f"zz.{name} is invalid" for way, name, ty in top.ports if way == "input"]
        return [*lines, "inst zz of Top", *inputs], "F7 Top Top"
    more, place, text = BEHIND[form]
    return [*lines, *more], text.format(len(lines) + 1 + place)



def request_fault(numbers, asked, cut):
    """A partition in which something may be wrong, made from one without a fault."""
    path = numbers.choice(["", "nowhere", "Top", *cut.flat.instances, *cut.flat.memories, *cut.flat.types])
    name = numbers.choice(["", "nowhere", *cut.flat.types, *(channel.name for channel in cut.channels)])
    number = numbers.choice([0, 1, 4096, 4097, 2**64 - 1, 2**64, -1, 1.5, True])
    entry = {"name": numbers.choice(["echo8", "echo9", "echo1"]), "sees": [name], "drives": [numbers.choice([*cut.inputs, name])]}
    group = numbers.choice([[path], [path, path], [*asked.get("units", []), path]])
    changes = [
        lambda: asked.setdefault("units", []).append(path),
        lambda: asked.setdefault("share", []).append(group),
        lambda: asked.setdefault("memories", []).extend(numbers.choice([[path], cut.memories[:1]])),
        lambda: asked.setdefault("capacity", {}).update({name: number}),
        lambda: asked.setdefault("pipe", []).extend(numbers.choice([[name], [name, name]])),
        lambda: asked.setdefault("clocks", {}).update({numbers.choice([*cut.clocks, name]): [numbers.choice([0, 1, 2]), numbers.choice([0, 1, 65_535, 65_536])]}),
        lambda: asked.setdefault("bridges", []).append(entry),
        lambda: asked.update({numbers.choice(["unit", "Units", "zone", ""]): 0}),
        lambda: asked.update({"direct": not asked.get("direct", False)}),
    ]
    for change in numbers.sample(changes, numbers.choice([0, 1, 1, 2])) or [lambda: asked.update({numbers.choice(KEYS): numbers.choice([1, None, "x", [1], {"a": "b"}])})]:
        change()
    return asked


def bytes_fault(numbers, content):
    """Bytes with some damage: a byte turned, a part cut, a line doubled or left out or moved, or a number that is larger."""
    content = bytearray(content)
    lines = bytes(content).split(b"\n")
    k, end = numbers.randrange(len(content) + 1), numbers.randrange(len(content) + 1)
    form = numbers.randrange(7)
    if form == 0 and content:
        content[k % len(content)] ^= 1 << numbers.randrange(8)
    elif form == 1:
        content[k:k] = bytes([numbers.choice([0, 10, 13, 9, 32, 34, 48, 57, 97, 255, numbers.randrange(256)])])
    elif form == 2:
        del content[min(k, end):max(k, end)]
    elif form == 3:
        content = content[:k]
    elif form == 4:
        at = numbers.randrange(len(lines))
        lines[at:at + 1] = numbers.choice([[], [lines[at]] * 2, [b""], [lines[numbers.randrange(len(lines))]]])
        content = bytearray(b"\n".join(lines))
    else:
        places = [i for i, byte in enumerate(content) if 48 <= byte <= 57]
        if places:
            at = numbers.choice(places)
            content[at:at + 1] = numbers.choice([b"", b"0", b"9", b"-1", b"65536", b"4294967295", b"4294967296", b"18446744073709551616", b"9" * 40])
    return bytes(content)
