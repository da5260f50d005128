"""The modules of a circuit as it stands in its file, for the tools that look into it."""
import re

from ports import lines_of, top_of
from refused import Refused
from widths import type_of

NAME = r"(\w[\w$]*)"
HEAD = re.compile(rf"\s*(?:public\s+)?module\s+{NAME}\s*:")
KEPT = re.compile(rf"\s*(input|output|wire|reg|regreset)\s+{NAME}\s*:\s*(Clock|[US]Int<\s*\d+\s*>)")
NODE = re.compile(rf"\s*node\s+{NAME}\s*=\s*(.*?)\s*(?:@\[.*)?$")
INSTANCE = re.compile(rf"\s*inst\s+{NAME}\s+of\s+{NAME}")
MEMORY = re.compile(rf"\s*mem\s+{NAME}\s*:")
FIELD = re.compile(r"\s*(data-type|depth|reader|writer)\s*=>\s*(.*?)\s*(?:@\[.*)?$")


class Part:
    """One module: its last port (`start`) and its last line, its ports and registers, its nodes as texts, its instances and its memories."""

    def __init__(self, name, start):
        self.name, self.start, self.end = name, start, start
        self.kinds, self.types, self.nodes, self.instances, self.memories = {}, {}, {}, {}, {}
        self.memory = None

    def read(self, line, number):
        """One line of the module."""
        self.end = number
        kept, node, inst, mem, field = (form.match(line) for form in (KEPT, NODE, INSTANCE, MEMORY, FIELD))
        if kept:
            self.start = number if kept.group(1) in ("input", "output") else self.start
            self.kinds[kept.group(2)], self.types[kept.group(2)] = kept.group(1), kept.group(3).replace(" ", "")
        elif node:
            self.nodes[node.group(1)] = node.group(2)
        elif inst:
            self.instances[inst.group(1)] = inst.group(2)
        elif mem:
            self.memory = self.memories[mem.group(1)] = {}
        elif field and self.memory is not None:
            self.memory[field.group(1)] = f"{self.memory.get(field.group(1), '')} {field.group(2)}".strip()

    def bits(self, *kinds):
        """How many bits the ports or registers of these kinds have, without clocks."""
        return sum(width(self.types[name]) for name, kind in self.kinds.items() if kind in kinds)


def width(kind):
    """The bits of a type; a clock has none."""
    return int(kind[5:-1]) if kind != "Clock" else 0


class Circuit:
    """The modules of a file."""

    def __init__(self, name):
        self.top, self.parts = top_of(name), {}
        part = None
        for number, line in enumerate(lines_of(name)):
            head = HEAD.match(line)
            if head:
                part = self.parts[head.group(1)] = Part(head.group(1), number)
            elif part and line.strip():
                part.read(line, number)
        if self.top not in self.parts:
            raise Refused(f"{name}: no module has the name {self.top} of the circuit")

    def type_in(self, part, name):
        """The type of a name in a module, or None."""
        inst, _, port = name.partition(".")
        if name in part.types:
            return part.types[name]
        if name in part.nodes:
            part.types[name] = type_of(part.nodes[name], lambda other: self.type_in(part, other))
            return part.types[name]
        if inst in part.instances and part.instances[inst] in self.parts:
            return self.parts[part.instances[inst]].types.get(port)
        if inst in part.memories and port.count(".") == 1:
            return self.field(part.memories[inst], port.split(".")[1])
        return None

    def field(self, memory, name):
        """The type of a field of a memory's port."""
        size = max(1, (int(memory.get("depth", 1)) - 1).bit_length())
        return {"data": memory.get("data-type"), "addr": f"UInt<{size}>", "en": "UInt<1>", "mask": "UInt<1>", "clk": "Clock"}.get(name)

    def walk(self, name=None, path=()):
        """Each instance below a module, with all below it: its path and its module."""
        for inst, of in self.parts[name or self.top].instances.items():
            if of in self.parts:
                yield (*path, inst), self.parts[of]
                yield from self.walk(of, (*path, inst))
