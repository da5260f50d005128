"""What the tools beside golden share: a refusal, and a place in a Verilog file."""
import re


class Refused(Exception):
    """What can't be done. The text names the place."""


def reason(why):
    """A refusal, or what the system refuses, as a text."""
    return f"{why.filename}: {why.strerror}" if isinstance(why, OSError) and why.filename else str(why)


def place(thing):
    """FILE:LINE of a cell, a name or a module of yosys, as far as yosys knows it."""
    src = thing.get("attributes", {}).get("src", "").split("|")[0]
    return re.sub(r"\.\d+(-\d+\.\d+)?$", "", src)


def info(thing):
    """The same as file information of FIRRTL, with a blank before it."""
    src = thing.get("attributes", {}).get("src", "").split("|")[0].rsplit("-", 1)[0]
    if ":" not in src or src.endswith(":0.0"):
        return ""
    name, spot = src.rsplit(":", 1)
    return f" @[{name.replace(']', ')')} {spot.replace('.', ':')}]"
