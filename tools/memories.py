"""Memories of a netlist as memories of golden's dialect, and as logic where nothing writes them.

A memory with enables by bit becomes one memory for each run of bits whose enables are the same for every writer. A memory that
is written and has contents at the start gets a memory of one bit beside it: a word that was not written yet is read from logic.
"""
from cells import LIMIT, literal, number_of
from refused import Refused, info, place

WORDS = 65536


def contents(row):
    """The words at the start, lowest first; undefined bits are 0."""
    width, size = number_of(row, "WIDTH"), number_of(row, "SIZE")
    text = row["parameters"]["INIT"]
    text = text if isinstance(text, str) else f"{text:b}"
    text = "".join("1" if bit == "1" else "0" for bit in text).rjust(width * size, "0")[-width * size:]
    return [int(text[len(text) - (k + 1) * width:len(text) - k * width], 2) for k in range(size)]


def name_of(memid):
    """The name of a memory, with those of the blocks that it is in. One that yosys made has its last part alone."""
    return memid.split(".")[-1].lstrip("\\") if memid.startswith("$") else memid.lstrip("\\")


def lanes(row):
    """The runs of bits, each with its lowest bit and its width."""
    width, writers = number_of(row, "WIDTH"), number_of(row, "WR_PORTS")
    enables = row["connections"]["WR_EN"]
    key = lambda bit: [enables[k * width + bit] for k in range(writers)]
    out, low = [], 0
    for bit in range(1, width + 1):
        if bit == width or key(bit) != key(low) or bit - low == LIMIT:
            out.append((low, bit - low))
            low = bit
    return out


class Memory:
    """One memory of a module. `text` is the module's writer."""

    def __init__(self, text, cell, row):
        self.text, self.row = text, row
        self.width, self.size = number_of(row, "WIDTH"), number_of(row, "SIZE")
        self.abits, self.offset = number_of(row, "ABITS"), number_of(row, "OFFSET")
        self.readers, self.writers = number_of(row, "RD_PORTS"), number_of(row, "WR_PORTS")
        self.hint = name_of(row["parameters"].get("MEMID", cell))
        self.words = contents(row)
        self.names, self.marks = [], []
        if self.size > WORDS and self.writers:
            raise Refused(f"{place(row)}: the memory {self.hint} has {self.size} words; there may be {WORDS}")
        if "1" in row["parameters"]["RD_CLK_ENABLE"] or "0" in row["parameters"]["WR_CLK_ENABLE"] and self.writers:
            raise Refused(f"{place(row)}: the memory {self.hint} has a port with another clock than golden knows")

    def declare(self):
        """The lines that declare its memories; notes what its readers give."""
        if not self.writers:
            return
        lines = lanes(self.row)
        for number, (low, width) in enumerate(lines):
            name = self.text.names.new(self.hint if len(lines) == 1 else f"{self.hint}_{number}")
            self.names.append((name, low, width))
            self.one(name, width)
            mark = None
            if any(word >> low & (1 << width) - 1 for word in self.words):
                mark = self.text.names.new(f"{name}_written")
                self.one(mark, 1)
            self.marks.append(mark)
        if not any(self.marks):
            self.note_data()

    def one(self, name, width):
        """The lines of one memory."""
        ports = lambda letter, count: " ".join(f"{letter}{k}" for k in range(count))
        self.text.lines += [f"mem {name} :{info(self.row)}", f"  data-type => UInt<{width}>", f"  depth => {self.size}",
                            "  read-latency => 0", "  write-latency => 1"]
        self.text.lines += [f"  reader => {ports('r', self.readers)}"] if self.readers else []
        self.text.lines += [f"  writer => {ports('w', self.writers)}", "  read-under-write => undefined"]
        for k in range(self.readers):
            self.text.widths[f"{name}.r{k}.data"] = width

    def note_data(self):
        """What the readers give, where no contents stand before it."""
        for k in range(self.readers):
            atoms = [(f"{name}.r{k}.data", bit) for name, _, width in self.names for bit in range(width)]
            self.text.note(self.data_bits(k), atoms)

    def data_bits(self, k):
        """The bits of the netlist that reader k gives."""
        return self.row["connections"]["RD_DATA"][k * self.width:(k + 1) * self.width]

    def place(self, atoms):
        """A word's number and whether it may be in range, from an address: atoms, and a text."""
        need = max(1, (self.size - 1).bit_length())
        if self.offset:
            size = max(len(atoms), (self.offset + self.size).bit_length()) + 1
            text = f"bits(sub({self.text.text(atoms + ['0'] * (size - len(atoms)))}, {literal(self.offset, size)}), {size - 1}, 0)"
            atoms = self.text.node(f"{self.hint}_at", text, size, self.row)
        far = [atom for atom in atoms[need:] if atom != "0"]
        return (atoms + ["0"] * need)[:need], f"not(orr({self.text.text(far)}))" if far else ""

    def read(self, k):
        """The lines of reader k, or its logic. Called when its address is there."""
        links = self.row["connections"]
        atoms, inside = self.place(self.text.atoms(links["RD_ADDR"][k * self.abits:(k + 1) * self.abits]))
        if not self.writers:
            self.text.note(self.data_bits(k), self.gated(self.rom(atoms, 0, self.width, f"{self.hint}_r{k}"), inside))
            return
        out = []
        for (name, low, width), mark in zip(self.names, self.marks):
            for part in filter(None, (name, mark)):
                self.connect(f"{part}.r{k}", atoms, inside or literal(1, 1))
            data = [(f"{name}.r{k}.data", bit) for bit in range(width)]
            if mark:
                begun = self.text.text(self.gated(self.rom(atoms, low, width, f"{name}_r{k}"), inside))
                data = self.text.node(f"{name}_r{k}_data", f"mux({mark}.r{k}.data, {self.text.text(data)}, {begun})", width, self.row)
            out += data
        if any(self.marks):
            self.text.note(self.data_bits(k), out)

    def gated(self, atoms, inside):
        """The value, and 0 where the address is out of range."""
        if not inside or all(atom == "0" for atom in atoms):
            return atoms
        make = lambda low, high: f"mux({inside}, {self.text.text(atoms[low:high])}, {literal(0, high - low)})"
        return self.text.pieces(f"{self.hint}_inside", len(atoms), make, self.row)

    def connect(self, port, atoms, enable, writer=0):
        """Address, enable and clock of a port: a writer's own clock. A reader has that of the first writer, since it has latency 0."""
        self.text.ends += [f"{port}.addr <= {self.text.text(atoms)}", f"{port}.en <= {enable}", f"{port}.clk <= {self.clock(writer)}"]

    def clock(self, writer):
        """The clock of a writer."""
        return self.text.text(self.text.atoms(self.row["connections"]["WR_CLK"][writer:writer + 1]))

    def write(self):
        """The lines of the writers."""
        links = self.row["connections"]
        for k in range(self.writers):
            atoms, inside = self.place(self.text.atoms(links["WR_ADDR"][k * self.abits:(k + 1) * self.abits]))
            for (name, low, width), mark in zip(self.names, self.marks):
                enable = self.text.text(self.text.atoms(links["WR_EN"][k * self.width + low:][:1]))
                enable = self.text.in_turn(self.clock(k), number_of(self.row, "WR_CLK_POLARITY") >> k & 1, enable, literal(0, 1))
                data = self.text.text(self.text.atoms(links["WR_DATA"][k * self.width + low:][:width]))
                for part, value in ((name, data), (mark, literal(1, 1))):
                    if part:
                        self.connect(f"{part}.w{k}", atoms, inside or literal(1, 1), k)
                        self.text.ends += [f"{part}.w{k}.mask <= {enable}", f"{part}.w{k}.data <= {value}"]

    def rom(self, atoms, low, width, hint):
        """The contents as logic: a tree of multiplexers by the bits of the address, equal parts once."""
        words = [word >> low & (1 << width) - 1 for word in self.words]
        words += [0] * ((1 << len(atoms)) - len(words))
        level = [self.constant(word, width) for word in words]
        seen = {}
        for number, atom in enumerate(atoms):
            level = [self.choose(atom, level[2 * k], level[2 * k + 1], f"{hint}_{number}", seen) for k in range(len(level) // 2)]
        return level[0]

    def constant(self, word, width):
        """A word as atoms."""
        return [str(word >> bit & 1) for bit in range(width)]

    def choose(self, atom, off, on, hint, seen):
        """One multiplexer of the tree."""
        key = (atom, tuple(off), tuple(on))
        if off == on:
            return off
        if key not in seen:
            make = lambda low, high: f"mux({self.text.text([atom])}, {self.text.text(on[low:high])}, {self.text.text(off[low:high])})"
            seen[key] = self.text.pieces(hint, len(on), make, self.row)
        return seen[key]
