"""What a partition asks for, and its faults, P1 to P17. By docs/FORMATS.md."""
import json
from collections import Counter

from cuts import ECHOES, Cut, listed
from ends import Ended


def bridge_of(value):
    """Whether a value is an entry of `bridges`."""
    return isinstance(value, dict) and set(value) == {"name", "sees", "drives"} and isinstance(value["name"], str) and names_of(value["sees"]) and names_of(value["drives"])


def names_of(value):
    """Whether a value is a list of texts."""
    return isinstance(value, list) and all(isinstance(each, str) for each in value)


def whole_of(value):
    """Whether a value is a whole number of 64 bits without a sign."""
    return isinstance(value, int) and not isinstance(value, bool) and 0 <= value < 2**64


SHAPES = {
    "units": names_of,
    "share": lambda value: isinstance(value, list) and all(names_of(each) for each in value),
    "memories": names_of,
    "capacity": lambda value: isinstance(value, dict) and all(whole_of(each) for each in value.values()),
    "direct": lambda value: isinstance(value, bool),
    "pipe": names_of,
    "clocks": lambda value: isinstance(value, dict) and all(isinstance(each, list) and len(each) == 2 and all(map(whole_of, each)) for each in value.values()),
    "bridges": lambda value: isinstance(value, list) and all(bridge_of(each) for each in value),
}


def not_json(*_):
    """Refuses what Python reads as JSON and RFC 8259 doesn't have."""
    raise ValueError


def request_of(content):
    """What a partition asks for."""
    try:
        request = json.loads(content.decode("utf-8"), parse_constant=not_json, parse_float=finite, parse_int=integer)
    except (ValueError, RecursionError):
        raise Ended(6, "partition: P1 -") from None
    if not isinstance(request, dict):
        raise Ended(6, "partition: P1 -")
    for key, fits in SHAPES.items():
        if key in request and not fits(request[key]):
            raise Ended(6, f"partition: P1 {key}")
    unknown = sorted((key for key in request if key not in SHAPES), key=lambda key: key.encode("utf-8", "surrogatepass"))
    if unknown:
        raise Ended(6, f"partition: P1 {unknown[0]}")
    return request


def finite(text):
    """A number with a fraction or an exponent; one too large for 64 bits is no JSON here."""
    number = float(text)
    return number if abs(number) != float("inf") else not_json()


def integer(text):
    """A number without these. `-0` is not a whole number."""
    finite(text)
    return -0.0 if text == "-0" else int(text)


def repeated(names):
    """The names that an earlier one equals."""
    return [name for k, name in enumerate(names) if name in names[:k]]


def paths_fault(flat, request):
    """P2 to P6, or None."""
    units, shares, memories = listed(request, "units"), listed(request, "share"), listed(request, "memories")
    shared = [unit for units_of in shares for unit in units_of]

    def overlaps(k):
        return any((units[k] + ".").startswith(other + ".") or (other + ".").startswith(units[k] + ".") for other in units[:k])

    tests = [
        ("P2", lambda: [u for u in units if u not in flat.instances or not u] + [u for u in shared if u not in units]),
        ("P3", lambda: [u for k, u in enumerate(units) if overlaps(k)] + repeated(shared) + repeated(memories)),
        ("P4", lambda: [u for of in shares for u in of if flat.instances[u].name != flat.instances[of[0]].name]),
        ("P5", lambda: [m for m in memories if m not in flat.memories]),
        ("P6", lambda: [m for m in memories for of in shares for u in of if m.startswith(u + ".") for v in of if v + m[len(u):] not in memories]),
    ]
    for code, test in tests:
        found = test()
        if found:
            return f"{code} {found[0]}"
    return None


def channels_fault(cut, request):
    """P7 to P13, or None."""
    names = {channel.name for channel in cut.channels}
    capacities = sorted(request.get("capacity", {}).items(), key=lambda pair: pair[0].encode())
    ratios = sorted(request.get("clocks", {}).items(), key=lambda pair: pair[0].encode())
    many = len(cut.units) + len(cut.memories)
    found = [f"P7 {name}" for name, _ in capacities if name not in names]
    found += [f"P8 {name} {number}" for name, number in capacities if not 1 <= number <= 4096]
    found += [f"P9 units {many}"] * (many > 256) + [f"P9 channels {len(names)}"] * (len(cut.channels) > 16_384)
    found += [f"P10 {name}" for name in cut.pipes if name not in names]
    found += [f"P11 {name}" for name in repeated(cut.pipes)]
    found += [f"P12 {name}" for name, _ in ratios if name not in cut.clocks]
    found += [f"P13 {name} {m} {d}" for name, (m, d) in ratios if not 1 <= m <= d <= 65_535]
    return found[0] if found else None


def bridges_fault(cut, is_saved):
    """P14 to P17, or None."""
    seen, driven, names = Counter(), Counter(), set()
    for entry in cut.bridges:
        if entry["name"] not in ECHOES or entry["name"] in names:
            return f"P14 {entry['name']}"
        names.add(entry["name"])
        for key, counts, there in (("sees", seen, cut.outputs), ("drives", driven, cut.inputs)):
            for port in entry[key]:
                counts[port] += 1
                if port not in there or counts[port] > 1:
                    return f"P15 {port}"
        wanted = [("U", ECHOES[entry["name"]])]
        if any([cut.flat.types[port] for port in entry[key]] != wanted for key in ("sees", "drives")):
            return f"P16 {entry['name']}"
    return "P17" if cut.bridges and is_saved else None


def cut_of(flat, request, capacity, is_saved):
    """The cut that is asked for."""
    fault = paths_fault(flat, request)
    if fault is None:
        cut = Cut(flat, request, capacity)
        fault = channels_fault(cut, request) or bridges_fault(cut, is_saved)
    if fault:
        raise Ended(6, f"partition: {fault}")
    return cut
