"""What `stops` and `clocks` share: processor seconds, counted instructions, and a program beside one from before."""
import os
import re
import resource
import subprocess
import sys
import tempfile

RUNS = 10
WAYS = [("--mono", ["--mono"]), ("0 workers", ["--workers", "0"]), ("2 workers", ["--workers", "2"])]
HERE = os.path.dirname(os.path.abspath(__file__))


def write(folder, texts):
    """Writes these files."""
    for name, text in texts.items():
        with open(f"{folder}/{name}", "w") as out:
            out.write(text)


def least(words, folder, status, out=subprocess.PIPE):
    """The least processor seconds of some runs, and what the last one printed."""
    seconds = []
    for _ in range(RUNS):
        before = resource.getrusage(resource.RUSAGE_CHILDREN)
        done = subprocess.run(words, cwd=folder, stdout=out, stderr=subprocess.DEVNULL)
        after = resource.getrusage(resource.RUSAGE_CHILDREN)
        if done.returncode != status:
            sys.exit(f"{' '.join(words)}: status {done.returncode}")
        seconds.append(after.ru_utime - before.ru_utime + after.ru_stime - before.ru_stime)
    return min(seconds), done.stdout


def instructions(words, folder):
    """How many instructions a run takes, and what it printed."""
    done = subprocess.run(["valgrind", "--tool=callgrind", "--callgrind-out-file=/dev/null", *words], cwd=folder, stdout=subprocess.PIPE, stderr=subprocess.PIPE, check=True)
    return int(re.search(rb"Collected : (\d+)", done.stderr).group(1)), done.stdout


def misses(words, folder):
    """Instructions of a run, first-level misses of data, and branches that a simple predictor misses."""
    said = ["--cache-sim=yes", "--branch-sim=yes", "--D1=32768,8,64", "--cachegrind-out-file=/dev/null"]
    done = subprocess.run(["valgrind", "--tool=cachegrind", *said, *words], cwd=folder, stdout=subprocess.DEVNULL, stderr=subprocess.PIPE, check=True)
    found = [re.search(pattern, done.stderr) for pattern in (rb"I +refs: +([\d,]+)", rb"D1 +misses: +([\d,]+)", rb"Mispredicts: +([\d,]+)")]
    return [int(one.group(1).replace(b",", b"")) for one in found]


def before(program, other, what, cases):
    """Counts instructions of circuits of `make`, each over so many rows, with two programs, and prints a table. The second program is that
    from before `what`. Whether the first takes at most 3 percent more."""
    print(f"| Circuit | Rows | Way | Instructions | Before {what} | More |")
    print("|---|---|---|---|---|---|")
    is_right = True
    with tempfile.TemporaryDirectory() as folder:
        for case, rows in cases:
            subprocess.run([f"{HERE}/make", case, str(rows), folder], check=True)
            for name, words in WAYS[:2]:
                words = ["run", f"{case}.fir", f"{case}.json", f"{case}.trace", *words]
                (now, text), (then, same) = instructions([program, *words], folder), instructions([other, *words], folder)
                if text != same:
                    sys.exit(f"{case}, {name}: another output")
                is_right &= now <= 1.03 * then
                print(f"| {case} | {rows:,} | {name} | {now:,} | {then:,} | {100 * (now - then) / then:.2f} % |", flush=True)
    return is_right
