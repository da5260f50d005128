"""Random partitions and traces of a circuit."""
import json

from operations import pattern


def trace(numbers, cut, rows):
    """A trace of these rows. The names stand in any order, and a value may have zeros in front and digits of either case."""
    names = [name for name in cut.inputs if name not in cut.driven]
    numbers.shuffle(names)
    lines = [" ".join(["cycle", *names])]
    for row in range(rows):
        values = [value(numbers, cut.flat.types[name]) for name in names]
        lines.append(numbers.choice([" ", " ", " ", "  ", "\t"]).join([str(row), *values]))
    end = numbers.choice(["\n", "\n", "\n", "\r\n"])
    return (end.join(lines) + (end if numbers.random() < 0.8 else "")).encode()


def value(numbers, ty):
    """A value of a type, as a trace may have it."""
    text = f"{pattern(ty, numbers.choice([0, 1, -1, numbers.getrandbits(128), numbers.getrandbits(128)])):x}"
    return numbers.choice([text, text, text.upper(), "00" + text])


def sample(numbers, items, share):
    """Some of these, in any order."""
    items = [item for item in items if numbers.random() < share]
    numbers.shuffle(items)
    return items


def separate(numbers, flat):
    """Instances none of which holds another."""
    units = []
    for path in sample(numbers, [path for path in flat.instances if path], numbers.choice([0.2, 0.6, 1])):
        if not any((path + ".").startswith(unit + ".") or (unit + ".").startswith(path + ".") for unit in units):
            units.append(path)
    return units


def shares(numbers, flat, units):
    """Lists of units of one module."""
    by_module = {}
    for unit in units:
        by_module.setdefault(flat.instances[unit].name, []).append(unit)
    return [found for found in (sample(numbers, group, 0.8) for group in by_module.values()) if found and numbers.random() < 0.7]


def memories(numbers, flat, units_of):
    """Memories that are listed, together with those at the same place in units that share a host."""
    listed = sample(numbers, list(flat.memories), 0.5)
    for path in list(listed):
        for units in units_of:
            listed += [other + path[len(unit):] for unit in units if path.startswith(unit + ".") for other in units if other + path[len(unit):] not in listed]
    return listed


def bridges(numbers, flat, echoes):
    """Entries of echoes whose ports there are."""
    entries, ports = [], flat.instances[""].ports
    free = {way: [(name, ty) for each, name, ty in ports if each == way] for way in ("input", "output")}
    for name, width in sample(numbers, list(echoes.items()), 0.8):
        fitting = {way: [port for port, ty in free[way] if ty == ("U", width)] for way in free}
        if fitting["input"] and fitting["output"]:
            sees, drives = numbers.choice(fitting["output"]), numbers.choice(fitting["input"])
            entries.append({"name": name, "sees": [sees], "drives": [drives]})
            free = {way: [(port, ty) for port, ty in found if port not in (sees, drives)] for way, found in free.items()}
    return entries


def ratios(numbers, clocks):
    """Ratios for some of the clocks."""
    found = {}
    for clock in sample(numbers, clocks, 0.7):
        d = numbers.choice([1, 2, 3, 4, 7, 65_535])
        found[clock] = [numbers.randint(1, d), d]
    return found


def partition(numbers, asked):
    """The bytes of a partition: with blanks or without, with a character as its number, or with a key that is there twice."""
    text = json.dumps(asked, indent=numbers.choice([None, None, 1, "\t"]), separators=numbers.choice([None, (",", ":"), (" , ", "\r\n:")]))
    if numbers.random() < 0.2:
        text = text.replace("s", "\\u0073", 1)
    if asked and numbers.random() < 0.1:
        text = f'{{"{next(iter(asked))}": [[7]], {text[1:]}'
    return text.encode()


def request(numbers, flat, echoes, cut_of):
    """A partition without a fault. `cut_of` gives the cut of one, so that names of channels can be taken from it."""
    units = separate(numbers, flat)
    units_of = shares(numbers, flat, units)
    asked = {"units": units, "share": units_of, "memories": memories(numbers, flat, units_of)}
    asked |= {"direct": numbers.random() < 0.4, "bridges": bridges(numbers, flat, echoes)}
    names = [channel.name for channel in cut_of(flat, asked | {"direct": False}).channels]
    asked["pipe"] = sample(numbers, names, numbers.choice([0, 0, 0.2, 0.5]))
    cut = cut_of(flat, asked)
    left = [channel.name for channel in cut.channels]
    asked["pipe"] = [name for name in asked["pipe"] if name in left]
    left = [channel.name for channel in cut_of(flat, asked).channels]
    asked["capacity"] = {name: numbers.choice([1, 1, 2, 3, 4096]) for name in sample(numbers, left, 0.3)}
    asked["clocks"] = ratios(numbers, cut.clocks)
    return {key: asked[key] for key in sample(numbers, list(asked), 1) if asked[key] or numbers.random() < 0.2}
