"""Asks the program, in a folder of its own."""
import os
import resource
import subprocess
import sys

MOST_SECONDS = 600


def put(folder, files):
    """Writes these files, and no others."""
    for name in os.listdir(folder):
        os.remove(f"{folder}/{name}")
    for name, content in files.items():
        with open(f"{folder}/{name}", "wb") as out:
            out.write(content)


def ask(program, words, folder):
    """The status, the text and the line of a call, and its processor seconds. A call that doesn't end has the status None."""
    before = resource.getrusage(resource.RUSAGE_CHILDREN)
    try:
        done = subprocess.run([program, *words], cwd=folder, capture_output=True, timeout=MOST_SECONDS)
    except subprocess.TimeoutExpired:
        return (None, "", ""), MOST_SECONDS
    after = resource.getrusage(resource.RUSAGE_CHILDREN)
    seconds = after.ru_utime - before.ru_utime + after.ru_stime - before.ru_stime
    return (done.returncode, done.stdout.decode("latin-1"), done.stderr.decode("latin-1")), seconds


def keep(name, folder, words, told):
    """Keeps the files of a finding, and tells it."""
    os.makedirs(f"findings/{name}", exist_ok=True)
    for file in os.listdir(folder):
        with open(f"{folder}/{file}", "rb") as content, open(f"findings/{name}/{file}", "wb") as out:
            out.write(content.read())
    with open(f"findings/{name}/words", "w") as out:
        out.write(" ".join(words) + "\n" + told + "\n")
    print(f"{name}: {' '.join(words)}: {told[:300]}", flush=True)


def numbers_of(words, count):
    """The program, how many attempts, and the first of them, by the words of the script."""
    if not words:
        sys.exit(sys.modules["__main__"].__doc__.split("\n\n")[0])
    return os.path.abspath(words[0]), int(words[1]) if len(words) > 1 else count, int(words[2]) if len(words) > 2 else 0


class Progress:
    """Counts."""

    def __init__(self):
        self.counts = {}

    def add(self, key, more=1):
        """Counts one."""
        self.counts[key] = self.counts.get(key, 0) + more

    def told(self):
        """The counts in words."""
        return ", ".join(f"{count} {key}" for key, count in sorted(self.counts.items(), key=str))
