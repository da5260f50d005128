"""Wrong bodies, and what shuts each of them out: reads docs/measured/edits.txt, and says what it names and the sources don't have."""
import functools
import glob
import os
import re

from source import Missing, clauses_of, closing, signature_end

TOP = os.path.dirname(os.path.dirname(os.path.dirname(os.path.realpath(__file__))))
LIST = "docs/measured/edits.txt"
HEAD = re.compile(r"(\w+)(?:/(\w+))?(?: \((\w+)\))? ([0-9a-f]+)$")
# a name, what shuts the body out, and a commit in which it was refused again
LINE = re.compile(r"  ([\w-]+): (.+?)(?:; again ([0-9a-f]+))?$")
# a place, a name in it, a part of that
PART = re.compile(r"(\S+) (.+)$")
# words of clauses and definitions that leave one answer
DECIDES = re.compile(r"≡|↔|MatchBool")


class Body:
    """A line of the list, with the head that it stands under."""

    def __init__(self, head, line, number):
        self.crate, self.folder, self.old, self.commit = head
        self.name, self.what, self.again = line
        self.number = number

    def place(self):
        """Where git has its edit."""
        return f"{self.commit}:crates/{self.old or self.crate}/must-fail/{self.name}.edit"

    def file(self):
        """Where the edit stands while it is tried."""
        return f"crates/{self.crate}/must-fail/{self.name}.edit"


def bodies():
    """The wrong bodies of the list. A line that isn't one is told as it is."""
    head = None
    with open(os.path.join(TOP, LIST), encoding="utf-8") as file:
        for number, line in enumerate(file, 1):
            line = line.rstrip("\n")
            if line.startswith("#") or not line:
                continue
            found = HEAD.match(line)
            if found:
                head = found.groups()
            elif head and LINE.match(line):
                yield Body(head, LINE.match(line).groups(), number)
            else:
                yield f"{LIST}:{number}: a wrong body without what shuts it out, or a head that isn't one"


@functools.lru_cache(maxsize=None)
def text_of(path):
    """The text of a file in crates/; none if it isn't there."""
    whole = os.path.join(TOP, "crates", path)
    if not os.path.isfile(whole):
        raise Missing(f"crates/{path} isn't there")
    with open(whole, encoding="utf-8") as file:
        return file.read()


def need(holds, what):
    """Says what isn't there."""
    if not holds:
        raise Missing(what)


def clauses_in(path, name):
    """The clauses of each function of this name in a file."""
    text, found = text_of(path), []
    for at in re.finditer(rf"^ *(?:pub(?:\(crate\))? )?fn {name}\b", text, re.M):
        found.append(clauses_of(text, signature_end(text, at.end())))
    need(found, f"{path} has no function {name}")
    return found


def check_clause(path, names, by):
    """A clause of a function. It names the one answer, or the definition behind `by` does."""
    name, *part = names.split(" ")
    part = part[0] if part else ""
    clauses = [text for each in clauses_in(path, name) for kind, called, text in each if kind == "ensures" and called == part]
    need(clauses, f"{name} of {path} has no clause {part or 'without a name'}")
    need(by or any(DECIDES.search(text) for text in clauses), f"the clause {part} of {name} of {path} names no answer: add `by`")
    if by:
        check_definition(*PART.match(by).groups())


def check_definition(path, names):
    """A definition, or a field of one, that leaves one answer."""
    name, *part = names.split(" ")
    lines = text_of(path).split("\n")
    starts = [at for at, line in enumerate(lines) if re.match(rf"\s*(?:abbrev |record |data )?(?:pub )?(?:record |data )?{re.escape(name)} .*:", line)]
    need(starts, f"{path} has no definition {name}")
    end = next((at for at in range(starts[0], len(lines)) if not lines[at].strip()), len(lines))
    text = lines[starts[0]:end]
    if part:
        text = [line for line in text if re.match(rf"\s+(?:pub )?{re.escape(part[0])} :", line)]
        need(text, f"{name} of {path} has no part {part[0]}")
    need(DECIDES.search("\n".join(text)), f"{names} of {path} names no answer")


def check_theorem(path, name, _by):
    """A theorem of a file of worked rows."""
    need(re.search(rf"^\s*(?:pub )?{re.escape(name)} : ", text_of(path), re.M), f"{path} has no theorem {name}")
    need(os.path.basename(path).startswith("Worked"), f"{path} is no file of worked rows")


def check_law(path, names, _by):
    """A law: a function whose clause is a fact."""
    name, *part = names.split(" ")
    clauses = clauses_in(path, name)[0]
    need(not part or any(called == part[0] for _, called, _ in clauses), f"the law {name} of {path} has no clause {part}")


def check_ghost(path, names, by):
    """What a trait's own clause speaks of, as an `impl` gives it."""
    head, name = names.rsplit(" ", 1)
    text = text_of(path)
    found = re.search(rf"^impl(?:<[^{{]*?>)? {re.escape(head)}\b[^{{]*{{", text, re.M)
    need(found, f"{path} has no impl {head}")
    block = text[found.start():closing(text, found.end() - 1)]
    need(re.search(rf"^    ghost {name} = ", block, re.M), f"{head} of {path} has no {name}")
    if by:
        check_definition(*PART.match(by).groups())


def check_invariant(path, name, by):
    """The invariant of a type's model."""
    check_ghost(path, f"Model for {name} invariant", by)


def check_test(path, name, _by):
    """A test that fails on the wrong body."""
    need(re.search(rf"^#\[test\]\n(?:pub )?fn {name}\b", text_of(path), re.M), f"{path} has no test {name}")


KINDS = {"clause": check_clause, "test": check_test, "theorem": check_theorem, "law": check_law, "ghost": check_ghost, "invariant": check_invariant}


def check(body):
    """Says what a line names and the sources don't have."""
    if body.what == "edit":
        need(os.path.isfile(os.path.join(TOP, body.file())), f"{body.file()} isn't there")
        return
    kind, _, rest = body.what.partition(" ")
    need(kind in KINDS, f"{kind} is no kind of what shuts a wrong body out")
    rest, _, by = rest.partition(", by ")
    need(PART.match(rest), f"{rest} isn't a file and a name")
    path, names = PART.match(rest).groups()
    KINDS[kind](path, names, by)
    need(not os.path.exists(os.path.join(TOP, body.file())), f"{body.file()} is there: its line says `edit`, or it goes")


def lacks():
    """What is wrong with the list, a line each."""
    listed = set()
    for body in bodies():
        if isinstance(body, str):
            yield body
            continue
        if (body.crate, body.folder, body.commit, body.name) in listed:
            yield f"{LIST}:{body.number}: {body.name} comes twice"
        listed.add((body.crate, body.folder, body.commit, body.name))
        try:
            check(body)
        except Missing as missing:
            yield f"{LIST}:{body.number}: {body.name}: {missing}"
    edits = {body.file() for body in bodies() if not isinstance(body, str) and body.what == "edit"}
    there = sorted(os.path.relpath(file, TOP) for file in glob.glob(f"{TOP}/crates/*/must-fail/*.edit"))
    yield from (f"{file} has no line in {LIST}" for file in there if file not in edits)
