"""Random sets of files with the words of a call, and what the call has to end with, worked out before the program is asked."""
from dataclasses import dataclass

import inputs
import made
from calls import demo, ended
from cuts import ECHOES, Cut
from faults import bytes_fault, circuit_fault, request_fault
from operations import pattern
from runs import Reference
from spelling import circuit_lines, text_of
from steps import Network, Refused

ORDER = {
    "run": ["circuit", "partition", "trace"],
    "check": ["circuit", "partition"],
    "replay": ["circuit", "partition", "trace", "steps"],
    "save": ["circuit", "partition", "trace"],
    "resume": ["circuit", "partition", "trace", "snapshot"],
}
KINDS = ["none", "none", "none", "circuit", "partition", "partition", "trace", "last", "last", "words", "missing"]


@dataclass
class Set:
    """A call: its words, the contents of its files by name, and the status, the text and the line that it ends with; at status 2 the line isn't told."""
    words: list
    files: dict
    wanted: tuple


class Maker:
    """Makes one set."""

    def __init__(self, numbers):
        self.numbers = numbers

    def plain(self, command, rows=(0, 1, 2, 5, 20)):
        """A circuit, a partition without a fault, and a trace with one of these numbers of rows."""
        self.modules, self.flat = made.circuit(self.numbers)
        self.lines = circuit_lines(self.numbers, self.modules)
        echoes = {} if command in ("save", "resume") and self.numbers.random() < 0.9 else ECHOES
        self.asked = inputs.request(self.numbers, self.flat, echoes, lambda flat, asked: Cut(flat, asked, 2))
        self.capacity = self.numbers.choice([1, 2, 2, 3, 4096])
        self.cut = Cut(self.flat, self.asked, self.capacity)
        self.rows = self.numbers.choice(rows)
        self.trace = inputs.trace(self.numbers, self.cut, self.rows)

    def contents(self):
        """The files of `run`."""
        return {"circuit": text_of(self.numbers, self.lines), "partition": inputs.partition(self.numbers, self.asked), "trace": self.trace}

    def steps(self):
        """A file of steps that may be done, in any order, and perhaps one more line."""
        network, lines, known = Network(self.cut, self.rows), [], []
        known = list(network.lines())
        for _ in range(self.numbers.choice([0, 10, 100, 400])):
            line = self.numbers.choice(known)
            try:
                network.step(line)
                lines.append(line)
            except Refused:
                pass
        if self.numbers.random() < 0.5:
            lines.append(self.numbers.choice([*known, *known, "go x", "", "fire  x", "serve m r", "fire nowhere"]))
        return "".join(line + self.numbers.choice(["\n", "\n", "\r\n"]) for line in lines).encode()

    def snapshot(self):
        """A snapshot: of a state of the run, or of any state."""
        reference = Reference(self.cut)
        at = self.numbers.randint(0, self.rows + 1)
        state = reference.zeros()
        for _, key, place, ty in reference.places():
            value = self.numbers.choice([0, 0, 1, pattern(ty, -1), pattern(ty, self.numbers.getrandbits(128))])
            if place is None:
                state[key] = value
            else:
                state[key][place] = value
        return reference.snapshot(at, state).encode()

    def options(self, command):
        """Options in one of their forms."""
        options = [("--capacity", self.capacity)] * (self.capacity != 2)
        if command != "check" and command != "replay":
            options += [("--workers", self.numbers.choice([1, 2, 5, 64]))] * (self.numbers.random() < 0.3)
        words = [self.numbers.choice([[f"{name}={number}"], [name, f"{number}"], [f"{name}=00{number}"]]) for name, number in options]
        return words + [["--mono"]] * (command == "run" and self.numbers.random() < 0.3)

    def words(self, command, names):
        """The words of a call; options stand anywhere behind the command."""
        parts = [[name] for name in names]
        for option in self.options(command):
            parts.insert(self.numbers.randint(0, len(parts)), option)
        return [command, *(word for part in parts for word in part)]

    def make(self):
        """One set."""
        command, kind = self.numbers.choice([*ORDER, *ORDER, "demo"]), self.numbers.choice(KINDS)
        if command == "demo":
            seed, size = self.numbers.choice([0, 1, 2**32 - 1, self.numbers.getrandbits(32)]), self.numbers.randint(1, 12)
            return Set(["demo", str(seed), str(size), "--workers", str(self.numbers.randint(0, 4))], {}, (0, demo(seed, size), ""))
        self.plain(command)
        call, fault = {"command": command, "capacity": self.capacity}, None
        if kind == "circuit":
            self.lines, fault = circuit_fault(self.numbers, self.lines, self.modules[-1])
        contents = {"steps": self.steps(), "snapshot": self.snapshot()}
        if kind == "partition":
            self.asked = request_fault(self.numbers, self.asked, self.cut)
        contents |= self.contents()
        for file, found in (("trace", "trace"), ("steps", "last"), ("snapshot", "last")):
            if kind == found:
                contents[file] = bytes_fault(self.numbers, contents[file])
        at = self.numbers.randint(0, self.rows + 2)
        names = ORDER[command] + [str(at)] * (command == "save")
        wanted = (1, "", f"golden: circuit: {fault}\n") if fault else ended(call | {"at": at}, self.flat, contents)
        files = {name: contents[name] for name in ORDER[command]}
        return self.with_words(kind, self.words(command, names), files, wanted)

    def with_words(self, kind, words, files, wanted):
        """The set, perhaps with faulty words or without a file."""
        if kind == "words":
            words = self.numbers.choice([words[:2], [*words, "more", "words"], [*words, "--colour"], [*words, "--capacity", "0"], ["go", *words[1:]], words[1:], []])
            return Set(words, files, (2, "", None))
        if kind == "missing":
            del files["circuit"]
            return Set(words, files, (3, "", "golden: cannot load circuit\n"))
        return Set(words, files, wanted)
