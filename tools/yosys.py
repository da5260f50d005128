"""Calls yosys: the passes that it makes, and what it says."""
import json
import os
import re
import subprocess
import tempfile

from refused import Refused

OPTIMIZE = "opt -nodffe -nosdff"
IMPLICIT = re.compile(r"Identifier `\\(.+)' is implicitly declared")


def script(words, folder):
    """The passes of yosys. No pass may make enables, resets or tables of its own: golden has none of them. The first tribuf comes before proc, which
    takes z out of what latches read."""
    given = [f"-D{one}" for one in words.D] + [f'-I"{one}"' for one in words.I]
    reads = [" ".join(["read_verilog", *(["-sv"] if words.sv or name.endswith(".sv") else []), *given, f'"{name}"']) for name in words.files]
    values = "".join(f" -chparam {one.replace('=', ' ', 1)}" for one in words.P)
    kept = [f"setattr -set keep 1 w:{one} w:*.{one}" for one in (path.split(".")[-1] for path in words.stop)]
    return reads + [
        f"hierarchy -check -top {words.top}{values}", "tribuf", "proc -norom", *(["flatten"] if words.flatten else []), "tribuf -logic", "check", "chformal -remove", *kept,
        OPTIMIZE, "wreduce", OPTIMIZE, f'write_json "{folder}/before.json"', "async2sync",
        "memory -norom -nordff -nomap -nowiden -nosat", "dffunmap", "pmuxtree", "bmuxmap", "demuxmap", "opt_clean", f'write_json "{folder}/after.json"']


def run_yosys(words):
    """The netlist before and after asynchronous resets and latches become synchronous, and the names that yosys made nets of without a declaration."""
    with tempfile.TemporaryDirectory() as folder:
        name = os.path.join(folder, "script.ys")
        with open(name, "w") as file:
            file.write("\n".join(script(words, folder)) + "\n")
        try:
            done = subprocess.run(["yosys", "-q", "-s", name], stdout=subprocess.PIPE, stderr=subprocess.STDOUT, text=True)
        except FileNotFoundError:
            raise Refused("yosys isn't found: on Debian, apt-get install yosys")
        judge(done, words)
        before, after = [json.load(open(os.path.join(folder, part)))["modules"] for part in ("before.json", "after.json")]
        return before, after, set(IMPLICIT.findall(done.stdout))


def judge(done, words):
    """Refuses what yosys refuses, and two drivers of one bit, which it only warns of."""
    lines = done.stdout.splitlines()
    for number, line in enumerate(lines):
        if "ERROR" in line:
            more = "; --sv reads all files as SystemVerilog" if not words.sv and re.search(r"syntax error|\\assert'|\\assume'", line) else ""
            raise Refused(line.replace("ERROR: ", "").rstrip(".") + more)
        if "multiple conflicting drivers for" in line:
            name = line.split("drivers for ", 1)[1].rstrip(":").replace("\\", "")
            rest = [more.strip() for more in lines[number + 1:] if more.startswith("    ")]
            more = "; --flatten makes one module of all, and may end it" if any(re.search(r"of cell \S+ \([^$]", one) for one in rest[:2]) else ""
            raise Refused(f"{name} has two drivers: {', '.join(rest[:2])}{more}")
    if done.returncode:
        raise Refused(f"yosys ends with status {done.returncode}: {done.stdout[-300:]}")
