"""One module of a netlist as a module of golden's dialect."""
import re

from cells import LIMIT, Cells, literal, number_of, resized
from memories import Memory
from refused import Refused, info, place


class Names:
    """Names that are free in a module."""

    def __init__(self, taken):
        self.taken = set(taken)

    def new(self, hint):
        """A free name like the hint."""
        base = clean(hint)
        name, number = base, 1
        while name in self.taken:
            name, number = f"{base}_{number}", number + 1
        self.taken.add(name)
        return name


def clean(name):
    """The name with letters, digits and `_` alone: core[10].cpu is core_10_cpu."""
    text = re.sub(r"[^A-Za-z0-9_]", "_", name.replace("]", ""))
    return f"_{text}" if text[:1].isdigit() or not text else text


def port_pieces(ports):
    """Each port in pieces of at most LIMIT bits: its name in the netlist, its name here, its direction, its lowest bit, its width."""
    taken = Names(())
    out = []
    for port, row in ports.items():
        width = len(row["bits"])
        for low in range(0, width, LIMIT):
            name = taken.new(port if width <= LIMIT else f"{port}_{low // LIMIT}")
            out.append((port, name, row["direction"], low, min(LIMIT, width - low)))
    return out


class Writer(Cells):
    """Writes one module. `known` has the writers of the modules below it, `said` is told what the reader should know, `both` says whether registers
    take both edges."""

    def __init__(self, module, title, known, said, both=False):
        self.module, self.title, self.known, self.said, self.both = module, title, known, said, both
        self.pieces_of = port_pieces(module.ports)
        super().__init__(Names(name for _, name, _, _, _ in self.pieces_of), {})
        self.atom, self.ends, self.hints = {}, [], self.find_hints()
        self.memories, self.levels = {}, {}

    def find_hints(self):
        """For each bit its names in the Verilog text: the shortest first, then by the letters. And what muxes do with registers: in `held` those by
        which an asynchronous reset acts at once."""
        out, self.muxed, self.held = {}, {}, {}
        rows = [(len(name), name, row["bits"]) for name, row in self.module.data["netnames"].items() if not row["hide_name"]]
        for _, name, bits in sorted(rows):
            for number, bit in enumerate(bits):
                out.setdefault(bit, []).append((name, number, bits))
        for cell, row in self.module.cells.items():
            if row["type"] == "$mux":
                for port in "AB":
                    for made in (self.muxed, self.held)[:1 + cell.startswith("$auto$async2sync")]:
                        made.setdefault(tuple(row["connections"][port]), row["connections"]["Y"])
        return out

    def hint(self, bits, other):
        """A name for these bits: their own, and if that isn't one of a port; then a port's; then that of a part of a longer value."""
        names = self.hints.get(bits[0], [])
        whole = [name for name, _, of in names if of == bits]
        if whole:
            return next((name for name in whole if name not in self.module.ports), f"{whole[0]}_value")
        for name, low, of in names:
            if of[low:low + len(bits)] == bits:
                return f"{name}_{low + len(bits) - 1}_{low}" if len(bits) > 1 else f"{name}_{low}"
        if other == "register" and self.hints.get(self.muxed.get(tuple(bits), [None])[0]):
            return self.hint(self.muxed[tuple(bits)], "") + "_kept"
        return other

    def note(self, bits, atoms):
        """The bits of the netlist have these atoms."""
        self.atom.update(zip(bits, atoms))

    def atoms(self, bits):
        """The atoms of bits of the netlist; what is undefined, or has no driver, is 0."""
        out = []
        for bit in bits:
            if bit in ("0", "1"):
                out.append(bit)
            elif bit in self.atom:
                out.append(self.atom[bit])
            else:
                out.append("0")
                self.said.zero(self.module.data, bit, self.hints.get(bit))
        return out

    def write(self):
        """The lines of the module."""
        head = self.write_ports()
        self.declare()
        for key in self.module.keys:
            self.place_cell(*key)
        self.finish()
        return [f"module {self.title} :"] + [f"  {line}" for line in head + self.lines + self.ends]

    def write_ports(self):
        """The lines of the ports."""
        out = []
        for port, name, direction, low, width in self.pieces_of:
            is_clock = port in self.module.clocks
            out.append(f"{direction} {name} : {'Clock' if is_clock else f'UInt<{width}>'}")
            self.widths[name] = width
            if direction == "input":
                self.note(self.module.ports[port]["bits"][low:low + width], [(name, k) for k in range(width)])
        return out

    def declare(self):
        """Registers, instances and memories: what they give is there from the start."""
        for cell, row in self.module.cells.items():
            if row["type"] in self.known:
                self.declare_instance(cell, row)
            elif row["type"] == "$mem_v2":
                self.memories[cell] = Memory(self, cell, row)
                self.memories[cell].declare()
        rows = [(cell, row) for cell, row in self.module.cells.items() if row["type"] == "$dff"]
        for cell, row in rows:
            self.declare_register(row)

    def declare_instance(self, cell, row):
        """An instance, and what it gives."""
        name = self.names.new(cell if not cell.startswith("$") else row["type"].split("\\")[-1])
        below = self.known[row["type"]]
        self.lines.append(f"inst {name} of {below.title}{info(row)}")
        for port, inner, direction, low, width in below.pieces_of:
            bits = row["connections"].get(port, [])[low:low + width]
            self.widths[f"{name}.{inner}"] = width
            if direction == "output":
                self.note(bits, [(f"{name}.{inner}", k) for k in range(width)])
        row["name"] = name

    def begins(self, bits):
        """The bits that a register starts with."""
        if not hasattr(self, "inits"):
            self.inits = {}
            for name in self.module.data["netnames"].values():
                value = name["attributes"].get("init", "")
                value = value if isinstance(value, str) else f"{value:b}"
                self.inits.update({bit: mark for bit, mark in zip(name["bits"], reversed(value)) if mark in "01"})
        return sum(1 << k for k, bit in enumerate(bits) if self.inits.get(bit) == "1")

    def declare_register(self, row):
        """The registers of a cell, at most LIMIT bits each. One that starts at another value than 0 is kept inverted."""
        links = row["connections"]
        clock = row["clock"] = self.text(self.atoms(links["CLK"]))
        row["parts"] = []
        for low in range(0, len(links["Q"]), LIMIT):
            bits = links["Q"][low:low + LIMIT]
            start, hint = self.begins(bits), self.hint(bits, "register")
            name = self.names.new(f"{hint}_inverted" if start else hint)
            self.widths[name] = len(bits)
            self.lines.append(f"reg {name} : UInt<{len(bits)}>, {clock}{info(row)}")
            atoms = [(name, k) for k in range(len(bits))]
            if start:
                self.said.inverted(row, hint, start)
                atoms = self.node(hint, f"xor({name}, {literal(start, len(bits))})", len(bits), row)
            self.note(bits, atoms)
            row["parts"].append((name, low, len(bits), start))

    def place_cell(self, cell, port):
        """What comes next in the order of the module."""
        row = self.module.cells[cell]
        if row["type"] in self.known:
            return
        if row["type"] == "$mem_v2":
            self.memories[cell].read(int(port.split("#")[1]))
            return
        links = row["connections"]
        if row["type"] in ("$eqx", "$nex") and not {"x", "z"}.isdisjoint(links["A"] + links["B"]):
            # Nothing here is x or z.
            self.note(links["Y"], resized(["1" if row["type"] == "$nex" else "0"], len(links["Y"]), False))
            return
        ports = {name: self.atoms(bits) for name, bits in links.items() if name != "Y"}
        hint = self.hint(links["Y"], row["type"].lstrip("$"))
        self.note(links["Y"], super().write(hint, row, {**ports, "Y": links["Y"]}))

    def finish(self):
        """The connections: inputs of instances, registers, writers, outputs."""
        for cell, row in self.module.cells.items():
            if row["type"] in self.known:
                self.finish_instance(row)
            elif row["type"] == "$dff":
                self.finish_register(row)
            elif cell in self.memories:
                self.memories[cell].write()
        for port, name, direction, low, width in self.pieces_of:
            if direction == "output":
                self.ends.append(f"{name} <= {self.text(self.atoms(self.module.ports[port]['bits'][low:low + width]))}")

        for name, bit in self.module.stops:
            clock = next(iter(self.module.clocks), None)
            if clock is None:
                raise Refused(f"{place(self.module.data)}: --stop {name}: its module has no clock")
            self.ends.append(f"stop({clock}, {self.text(self.atoms([bit]))}, 1) : {self.names.new(f'{name}_stop')}")

    def finish_register(self, row):
        """The connections of a cell's registers. In a row without its edge a register keeps its value, or takes that of an asynchronous reset."""
        value, held = self.atoms(row["connections"]["D"]), self.held.get(tuple(row["connections"]["Q"]))
        edge = number_of(row, "CLK_POLARITY") if "CLK_POLARITY" in row["parameters"] else None
        for name, low, width, start in row["parts"]:
            texts = [self.text(self.atoms(held)[low:low + width]) if held else name, self.text(value[low:low + width])]
            other, text = [f"xor({one}, {literal(start, width)})" if start and one != name else one for one in texts]
            self.ends.append(f"{name} <= {self.in_turn(row['clock'], edge, text, other)}")

    def in_turn(self, clock, edge, text, other):
        """The text in the rows that end with this edge of the clock, and the other one else. Of a latch, which has no edge, in each row."""
        if not self.both or edge is None:
            return text
        if clock not in self.levels:
            name = self.levels[clock] = self.names.new(f"{clock}_high")
            self.widths[name] = 1
            self.lines.append(f"reg {name} : UInt<1>, {clock}")
            self.ends.append(f"{name} <= not({name})")
        return f"mux({self.levels[clock]}, {other if edge else text}, {text if edge else other})"

    def finish_instance(self, row):
        """The inputs of an instance."""
        below = self.known[row["type"]]
        for port, inner, direction, low, width in below.pieces_of:
            if direction != "input":
                continue
            bits = row["connections"].get(port, [])
            if port in below.module.clocks:
                text = self.text(self.atoms(bits))
            elif below.module.used.isdisjoint(below.module.ports[port]["bits"]):
                text = literal(0, width)
            else:
                text = self.text(self.atoms((bits + ["0"] * (low + width))[low:low + width]))
            self.ends.append(f"{row['name']}.{inner} <= {text}")
