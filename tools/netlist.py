"""A netlist of yosys: what drives what, which ports are clocks, in which order cells can be written."""
from cells import BITWISE, number_of, resized, is_signed
from refused import Refused, place


class Module:
    """One module. `deep` has the modules that are below it, by the type of their instances, `stops` the names and bits that end a run."""

    def __init__(self, name, data, deep, stops=()):
        self.name, self.data, self.deep, self.stops = name, data, deep, stops
        self.cells, self.ports = data["cells"], data["ports"]
        self.driver = {}
        self.input_of = {}
        for port, row in self.ports.items():
            if row["direction"] == "input":
                self.input_of.update({bit: port for bit in row["bits"]})
        for cell, row in self.cells.items():
            self.drive(cell, row)
        self.used = {bit for _, bit in stops}
        for row in self.cells.values():
            for port, bits in row["connections"].items():
                if not self.gives(row, port) and not self.is_dead(row, port):
                    self.used.update(bits)
        for row in self.ports.values():
            if row["direction"] == "output":
                self.used.update(row["bits"])
        self.find_clocks()

    def gives(self, row, port):
        """Whether a cell's port is an output of it."""
        if row["type"] in self.deep:
            return self.deep[row["type"]].ports[port]["direction"] == "output"
        return row["port_directions"][port] == "output"

    def is_dead(self, row, port):
        """Whether nothing in an instance's module reads this input."""
        below = self.deep.get(row["type"])
        return below is not None and not below.used.intersection(below.ports[port]["bits"])

    def drive(self, cell, row):
        """Notes what the cell drives. A bit has one driver."""
        for port, bits in row["connections"].items():
            if not self.gives(row, port):
                continue
            for k, bit in enumerate(bits):
                if bit in self.driver or bit in self.input_of or isinstance(bit, str):
                    raise Refused(f"{place(row)}: a bit has two drivers{self.other(bit)}")
                part = f"{port}#{k // number_of(row, 'WIDTH')}" if row["type"] == "$mem_v2" else port
                self.driver[bit] = (cell, part)

    def other(self, bit):
        """Where a bit's first driver is."""
        if bit in self.driver:
            return f", the other one is at {place(self.cells[self.driver[bit][0]])}"
        return ""

    def clock_bits(self):
        """Each bit in a clock's place, with its cell."""
        for row in self.cells.values():
            below = self.deep.get(row["type"])
            if below:
                for port in below.clocks:
                    yield from ((bit, row) for bit in row["connections"].get(port, ["x"]))
            elif row["type"] == "$dff":
                yield row["connections"]["CLK"][0], row
            elif row["type"] == "$mem_v2":
                yield from ((bit, row) for bit in row["connections"]["WR_CLK"])

    def find_clocks(self):
        """The inputs that are clocks. A clock is an input of one bit that nothing reads as data."""
        self.clocks = {}
        for bit, row in self.clock_bits():
            port = self.input_of.get(bit)
            if port is None:
                raise Refused(f"{place(row)}: {self.no_clock(bit)}")
            if len(self.ports[port]["bits"]) > 1:
                raise Refused(f"{place(row)}: the clock is a bit of the vector {port}")
            self.clocks.setdefault(port, bit)
        for port, bit in self.clocks.items():
            self.not_data(port, bit)

    def no_clock(self, bit):
        """Why a bit is no clock."""
        if bit not in self.driver:
            return "the clock is a constant, or nothing drives it"
        name = self.driver[bit][0]
        row = self.cells[name]
        more = "; --flatten makes one module of all, and may end it" if row["type"] in self.deep else ""
        return f"the clock is computed at {place(row)}: a clock is an input of the top{more}"

    def not_data(self, port, bit):
        """Refuses a clock that is read as data."""
        for row in self.cells.values():
            for name, bits in row["connections"].items():
                if bit in bits and not self.is_clock(row, name) and not self.is_dead(row, name):
                    raise Refused(f"{place(row)}: the clock {port} is read as data")
        for name, row in self.ports.items():
            if row["direction"] == "output" and bit in row["bits"]:
                raise Refused(f"{place(self.data)}: the output {name} is the clock {port}")
        if any(bit == one for _, one in self.stops):
            raise Refused(f"{place(self.data)}: the clock {port} can't be a stop")

    def is_clock(self, row, name):
        """Whether a cell's port is a clock's place."""
        if row["type"] in self.deep:
            return name in self.deep[row["type"]].clocks
        return (row["type"], name) in (("$dff", "CLK"), ("$mem_v2", "WR_CLK"), ("$mem_v2", "RD_CLK"))

    def graph(self):
        """For each thing that has a value of the cycle: the bits that it is computed from."""
        out = {}
        for cell, row in self.cells.items():
            links = row["connections"]
            if row["type"] in self.deep:
                below = self.deep[row["type"]]
                for port, inputs in below.reach.items():
                    out[cell, port] = [bit for name in inputs for bit in links.get(name, [])]
            elif row["type"] == "$mem_v2":
                size = number_of(row, "ABITS")
                for k in range(number_of(row, "RD_PORTS")):
                    out[cell, f"RD_DATA#{k}"] = links["RD_ADDR"][k * size:(k + 1) * size]
            elif row["type"] != "$dff":
                for port in links:
                    if self.gives(row, port):
                        out[cell, port] = [bit for name in links if name != port for bit in links[name]]
        return out

    def order(self):
        """The rings of the graph, what comes first first. Each is a list; one of a single thing may be no ring."""
        links = {}
        for key, bits in self.graph().items():
            links[key] = list(dict.fromkeys(self.driver[bit] for bit in bits if bit in self.driver))
        return rings({key: [k for k in after if k in links] for key, after in links.items()})

    def settle(self):
        """Takes bitwise cells in rings apart, refuses the rings that are left, and notes what each output is computed from."""
        loops = [ring for ring, is_loop in self.order() if is_loop]
        for cell in {key[0] for ring in loops for key in ring}:
            if self.cells[cell]["type"] in BITWISE or self.cells[cell]["type"] == "$pos":
                self.take_apart(cell)
        rows = self.order()
        for ring, is_loop in rows:
            if is_loop:
                inside = [self.cells[key[0]] for key in ring]
                known = [row for row in inside if place(row) and not place(row).endswith(":0")]
                spots = sorted({f"{place(row)} ({row['type']})" for row in known or inside})
                more = "; --flatten makes one module of all, and may end it" if any(row["type"] in self.deep for row in inside) else ""
                raise Refused(f"{spots[0].split(' ')[0]}: a combinational loop by whole signals: {', '.join(spots)}{more}")
        self.keys = [ring[0] for ring, _ in rows]
        self.note_reach()

    def take_apart(self, cell):
        """A bitwise cell in cells of one bit."""
        row = self.cells.pop(cell)
        links, signed = row["connections"], is_signed(row)
        width = len(links["Y"])
        for k in range(width):
            part = {name: [resized(bits, width, signed)[k]] for name, bits in links.items() if name != "S"}
            if "S" in links:
                part["S"] = links["S"]
            self.cells[f"{cell}#{k}"] = {**row, "connections": part}
            self.driver[links["Y"][k]] = (f"{cell}#{k}", "Y")

    def note_reach(self):
        """For each output the inputs that it is computed from within a cycle."""
        graph, found = self.graph(), {}
        for key in self.keys:
            mine = set()
            for bit in graph[key]:
                mine |= self.reached(bit, found)
            found[key] = mine
        self.reach = {}
        for port, row in self.ports.items():
            if row["direction"] == "output":
                self.reach[port] = set().union(*[self.reached(bit, found) for bit in row["bits"]])

    def reached(self, bit, found):
        """The inputs that a bit is computed from."""
        if bit in self.input_of:
            return {self.input_of[bit]}
        return found.get(self.driver.get(bit), set())


def rings(links):
    """The strongly connected parts of a graph, what a part depends on before it; with each whether it has a loop."""
    state = {"number": {}, "low": {}, "stack": [], "on": set(), "out": []}
    for key in links:
        if key not in state["number"]:
            visit(key, links, state)
    return state["out"]


def visit(root, links, state):
    """Walks from one thing, without recursion."""
    number, low, stack, on = state["number"], state["low"], state["stack"], state["on"]
    work = []

    def enter(key):
        number[key] = low[key] = len(number)
        stack.append(key)
        on.add(key)
        work.append((key, iter(links[key])))

    enter(root)
    while work:
        key, rest = work[-1]
        for other in rest:
            if other not in number:
                enter(other)
                break
            if other in on:
                low[key] = min(low[key], number[other])
        else:
            work.pop()
            if work:
                low[work[-1][0]] = min(low[work[-1][0]], low[key])
            if low[key] == number[key]:
                leave(key, links, state)


def leave(key, links, state):
    """Takes a whole part off the stack."""
    part = []
    while not part or part[-1] != key:
        part.append(state["stack"].pop())
        state["on"].discard(part[-1])
    state["out"].append((part, len(part) > 1 or key in links[key]))
