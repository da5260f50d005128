"""Netlists of yosys to netlists without what golden has no form for: latches, and ports that go both ways."""
from refused import Refused, place


def free_bit(data):
    """The number of a bit that a module doesn't have."""
    links = [row["connections"] for row in data["cells"].values()]
    rows = [bits for link in links for bits in link.values()] + [row["bits"] for part in ("ports", "netnames") for row in data[part].values()]
    return max((bit for bits in rows for bit in bits if isinstance(bit, int)), default=1) + 1


def clock_latches(modules, names, port="each_row"):
    """A latch, of which yosys has made a multiplexer and a cell that keeps, becomes a register of a new clock. The name of the clock, if there is one."""
    while any(port in modules[name]["ports"] for name in names):
        port += "_1"
    clocked = set()
    for name in names:
        data, bit = modules[name], free_bit(modules[name])
        rows = [(row, "CLK") for row in data["cells"].values() if row["type"] == "$ff"]
        rows += [(row, port) for row in data["cells"].values() if row["type"] in clocked]
        for row, pin in rows:
            row["type"] = "$dff" if pin == "CLK" else row["type"]
            row["connections"][pin], row["port_directions"][pin] = [bit], "input"
        if rows:
            data["ports"][port] = {"direction": "input", "bits": [bit]}
            clocked.add(name)
    return port if clocked else None


def part_inouts(modules, names, top, said):
    """An inout of the top becomes an input, with what all drive, and two outputs: what the design drives, and where."""
    for name in names:
        data = modules[name]
        ports = [port for port, row in data["ports"].items() if row["direction"] == "inout"]
        if ports and name != top:
            raise Refused(f"{place(data)}: the port {ports[0]} of the module {name} is an inout; --flatten makes one module of all")
        for port in ports:
            bits = data["ports"][port]["bits"]
            data["ports"][port] = {"direction": "input", "bits": bits}
            drivers = {cell: row for cell, row in data["cells"].items() if row["type"] == "$tribuf" and set(row["connections"]["Y"]) & set(bits)}
            if drivers:
                part_inout(data, port, drivers)
                said.say(f"{place(data)}: the inout {port} is an input, with what all drive; {port}_out is what the design drives, where {port}_enable is 1")


def part_inout(data, port, drivers):
    """Two outputs for an inout, and the drivers away."""
    value, enable = {}, {}
    for cell, row in drivers.items():
        for bit, one in zip(row["connections"]["Y"], row["connections"]["A"]):
            value[bit], enable[bit] = one, row["connections"]["EN"][0]
        del data["cells"][cell]
    bits = data["ports"][port]["bits"]
    for more, of in (("out", value), ("enable", enable)):
        data["ports"][f"{port}_{more}"] = {"direction": "output", "bits": [of.get(bit, "0") for bit in bits]}
