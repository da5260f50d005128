"""The signals of a waveform, and their values at the edges of a clock: what the tools that read a VCD share."""
import re

from refused import Refused

LIMIT = 128
ALIKE = 4


class Signals:
    """The signals that a file declares: each path's short name and width."""

    def __init__(self, scope):
        self.at, self.scope, self.found = [], scope, {}

    def read(self, words):
        """One declaration."""
        if words[0] == "$scope":
            self.at.append(words[2])
        elif words[0] == "$upscope":
            self.at.pop()
        elif words[0] == "$var":
            self.found.setdefault(".".join(self.at + [words[4]]), (words[3], int(words[2])))

    def look(self, name):
        """The short name of a signal, its width, and its lowest bit that counts: from-yosys makes a_0, a_1 .. of a port a that is too wide."""
        piece = re.fullmatch(r"(.*)_(\d+)", name)
        for path in (f"{self.scope}.{name}" if self.scope else name, name):
            if path in self.found:
                return *self.found[path], 0
            whole = piece and path.removesuffix(name) + piece.group(1)
            if whole in self.found and self.found[whole][1] > LIMIT:
                return *self.found[whole], int(piece.group(2)) * LIMIT
        alike = [path for path in self.found if path.endswith("." + name)][:ALIKE]
        raise Refused(f"no signal {name} in the scope {self.scope or 'of the whole file'}" + (f"; there is {', '.join(alike)}" if alike else ""))


def declarations(file, signals):
    """Reads the head of the file. A declaration may go over several lines."""
    words = []
    for line in file:
        words += line.split()
        while "$end" in words:
            end = words.index("$end")
            row, words = words[:end], words[end + 1:]
            if row and row[0] == "$enddefinitions":
                return
            if row:
                signals.read(row)


def changes(file):
    """The changes of the file: each time, and what changes at it."""
    time, now = 0, []
    for line in file:
        words = line.split()
        if not words or words[0].startswith("$"):
            continue
        if words[0][0] == "#":
            yield time, now
            time, now = int(words[0][1:]), []
        elif words[0][0] in "bBrR":
            now.append((words[1], words[0][1:]))
        else:
            now.append((words[0][1:], words[0][0]))
    yield time, now


def rows(file, clocks, kinds):
    """For each edge of the first clock: the values just before it, its time, and for each clock the times of its edges since the edge before. With
    edges of both kinds the first one is of the first kind."""
    values, seen, begun = {}, [[] for _ in clocks], False
    for time, now in changes(file):
        after = dict(now)
        for clock, times in zip(clocks, seen):
            if after.get(clock) in kinds and values.get(clock) not in (None, after[clock]):
                times.append(time)
        if seen[0]:
            begun = begun or after[clocks[0]] == kinds[0]
            if begun:
                yield values, time, seen
            seen = [[] for _ in clocks]
        values.update(now)


def number(text, low, width, told):
    """Bits of a value as a number. Bits that are x or z are 0. A value that begins with x or z is x or z above what is written."""
    text = text.rjust(low + width, text[0] if text[0] not in "01" else "0")
    text = text[len(text) - low - width:len(text) - low]
    bits = "".join(bit if bit in "01" else "0" for bit in text)
    if bits != text:
        told.append(text)
    return int(bits, 2)
