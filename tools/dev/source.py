"""Finds functions, their signatures and their clauses in sources."""
import re

CLAUSE = re.compile(r"\s*(?://[^\n]*\n\s*)*(ensures|requires|ghost)\b\s*(\w*)\s*\{")


class Missing(Exception):
    """What a page names and the sources don't have."""


def closing(text, start):
    """The place after the brace that closes the one at `start`."""
    depth = 0
    for place in range(start, len(text)):
        depth += (text[place] == "{") - (text[place] == "}")
        if depth == 0:
            return place + 1
    raise Missing("a brace that nothing closes")


def signature_end(text, start):
    """The place after a function's signature."""
    depth = 0
    for place in range(start, len(text)):
        depth += (text[place] in "([") - (text[place] in ")]")
        if depth == 0 and (text[place] in "{;" or CLAUSE.match(text, place)):
            return place
    raise Missing("the end of a signature")


def clauses_of(text, place):
    """The clauses after a signature: keyword, name, text."""
    out = []
    while found := CLAUSE.match(text, place):
        place = closing(text, found.end() - 1)
        out.append((found.group(1), found.group(2), " ".join(text[found.end() - 1:place].split())))
    return out
