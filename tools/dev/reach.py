"""Which definitions of specs/ the promises reach: by names and imports, from the clauses of functions on.

A clause means by its words what these definitions say, so they are what a reader has to trust. A name is followed to the definition
that the file's imports give it. A type of code is followed to what contracts see of it: its Model, the ghost fields of a struct, the
ghost members of a trait.
"""
import collections
import glob
import os
import re

from source import clauses_of, closing, signature_end

WORD = re.compile(r"[^\s(){},;.:«»]+")
USE = re.compile(r"^\s*(?:pub )?(?:ghost )?use Rattle\.(\w+)\.specs\.([\w.]+?)(?:\.\{([^}]*)\})?(?: as (\w+))?;?\s*$")
HEAD = re.compile(r"^(?:(?:abbrev|unfoldable|reducible|opaque|instance|pub|record|data|class|trait) )*([^\s:({})]+)")
INNER = re.compile(r"\s+(?:abbrev )?(?:pub )?(?:record |data )?([^\s:({]+)\s*[:({]")


class File:
    """A file of specs/: its imports, and its definitions, each with its lines."""

    def __init__(self, crate, name, text):
        self.crate, self.name = crate, name
        self.names, self.modules = imports(text)
        self.definitions, self.owner = collections.OrderedDict(), {}
        current = None
        for line in text.split("\n"):
            if line.startswith("--") or not line.strip():
                continue
            if re.match(r"(pub )?(mod|use)\b", line):
                current = None
            else:
                if not line[0].isspace() and (head := HEAD.match(line)):
                    current = head[1]
                if current:
                    self.definitions.setdefault(current, []).append(line)
        for name_, lines in self.definitions.items():
            if name_ == "module" or re.match(r"(pub )?data\b", lines[0]):
                for line in lines[1:]:
                    if found := INNER.match(line):
                        self.owner.setdefault(found[1], name_)


def imports(text):
    """What a file imports from specs/: names, each with its module and its name there, and whole modules."""
    names, modules = {}, {}
    for line in text.split("\n"):
        found = USE.match(line)
        if not found:
            continue
        at = (found[1], found[2])
        if found[3] is None:
            modules[found[4] or found[2].split(".")[-1]] = at
            continue
        for item in filter(None, (part.strip() for part in found[3].split(","))):
            there, _, here = item.partition(" as ")
            names[(here or there).strip()] = (at, there.strip())
    return names, modules


def specs_of(top):
    """The files of specs/ by crate and module."""
    files = {}
    for path in sorted(glob.glob(f"{top}/crates/*/specs/**/*.antt", recursive=True)):
        crate, _, name = os.path.relpath(path, f"{top}/crates").removesuffix(".antt").partition("/specs/")
        with open(path, encoding="utf-8") as file:
            files[crate, name.replace("/", ".")] = File(crate, name.replace("/", "."), file.read())
    return files


# ---- sources

def of_function(text, name):
    """The clauses of each function of this name; of a type or a trait, what contracts see of it."""
    out = []
    for found in re.finditer(rf"^[ ]*(?:pub(?:\(crate\))? )?(?:unsafe |const )*fn {name}\b", text, re.M):
        out += [body for _, _, body in clauses_of(text, signature_end(text, found.start()))]
    for found in re.finditer(rf"^[ ]*(?:pub(?:\(crate\))? )?(?:struct|enum|trait) {name}\b[^;{{]*|^impl\b[^{{;]*\bModel for {name}\b[^{{]*", text, re.M):
        inside = text[found.end():closing(text, found.end())]
        out += [inside[item.end() - 1:closing(inside, item.end() - 1)] for item in re.finditer(r"\b(?:ensures|requires|ghost)\b[^{};]*\{", inside)]
        out += re.findall(r"\bghost \w+: ([^{;,]*)[;,]", inside)
    return " ".join(out)


class Walk:
    """Follows names from clauses on. `seen` has the definitions that were reached."""

    def __init__(self, top):
        self.top, self.files, self.seen, self.types, self.todo = top, specs_of(top), set(), set(), []

    def read(self, names, modules, text, own=None):
        """Notes what the words of a text name."""
        for word in set(WORD.findall(text)):
            if word in names:
                self.todo.append(names[word])
            elif own is not None and (word in own.definitions or word in own.owner):
                self.todo.append(((own.crate, own.name), word))
        for module, word in re.findall(r"(\w+)\.([^\s(){},;.:]+)", text):
            if module in modules:
                self.todo.append((modules[module], word))

    def source(self, crate, path, name):
        """Notes what a function or type of code says by its clauses."""
        file = f"{self.top}/crates/{crate}/src/{path}.rt"
        if (file, name) in self.types or not os.path.exists(file):
            return
        self.types.add((file, name))
        with open(file, encoding="utf-8") as opened:
            text = opened.read()
        self.read(*imports(text), of_function(text, name))

    def find(self, at, name):
        """The definition that a name of a file stands for; None for one of code or of another library."""
        while at in self.files:
            file = self.files[at]
            if name in file.definitions:
                return at, name
            if name in file.owner:
                return at, file.owner[name]
            if name not in file.names:
                return None
            at, name = file.names[name]
        return self.declared(at, name)

    def declared(self, at, name):
        """A type of code, in the file of src/ that declares it."""
        crate, path = at
        parts = path.split(".")
        if parts[0] == "declared":
            parts = [part for part in parts[1:] if part not in ("TheVariants", "TheConstants")]
            for end in range(len(parts), 0, -1):
                if os.path.exists(f"{self.top}/crates/{crate}/src/{'/'.join(parts[:end])}.rt"):
                    self.source(crate, "/".join(parts[:end]), (parts[end:] or [name])[0])
                    return
        return

    def go(self):
        """Follows all that was noted, to the end."""
        while self.todo:
            found = self.find(*self.todo.pop())
            if found is None or found in self.seen:
                continue
            self.seen.add(found)
            file = self.files[found[0]]
            text = " ".join(line.split(" -- ")[0] for line in file.definitions[found[1]])
            self.read(file.names, file.modules, text, file)


def starts(top):
    """The functions that docs/PROVED.md names: crate, file, name."""
    with open(f"{top}/docs/PROVED.md", encoding="utf-8") as file:
        page = file.read()
    out = [(crate, path, name) for crate, path, name in re.findall(r"`(\w+)/src/([\w/]+)\.rt:\d+ (\w+)`", page)]
    for words in re.findall(r"<!-- clauses ([\w:]+?):? ", page):
        crate, *path, name = words.strip(":").split("::")
        out.append((crate, "/".join(part for part in path if not part[0].isupper()) or "lib", name))
    return sorted(set(out) | {("golden", "call", "golden_with")})


def reached(top):
    """The walk from all that PROVED names."""
    walk = Walk(top)
    for crate, path, name in starts(top):
        walk.source(crate, path, name)
    walk.go()
    return walk
