"""Runs `rt ci --anew NAME..` at the top of a repository, and prints what each crate took of the processors.

gate.sh runs this in a clean copy. rt is a Python program that starts one process of `rattle` for each proof, each
proof of tests and each edit. It's run here in this process, so that each of those is waited for by wait4, which
tells the processor time of a process and of all that it waited for itself. Nothing is sampled.
"""
import collections
import io
import os
import runpy
import shutil
import subprocess
import sys
import time

PARTS = ("proof", "tests", "edits")
# What isn't a check of a crate: linking, formatting, and running the tests and the program.
REST = ("", "")

begun = {}
spent = collections.defaultdict(float)


def part_of(words, folder):
    """Returns the crate that a command is about, and which part of its cost the command is."""
    words = [os.fsdecode(it) for it in words] if isinstance(words, (list, tuple)) else []
    if "--crate-name" not in words[:-1]:
        return REST
    crate = words[words.index("--crate-name") + 1]
    # rt tries each edit, and the check that the edits begin with, on a copy in a folder of this name
    if os.path.basename(folder or "").startswith("rt-edit-"):
        return crate, "edits"
    return crate, "tests" if "--test" in words else "proof"


class Popen(subprocess.Popen):
    """A process whose part is noted as soon as it's there."""

    def __init__(self, args, *given, **named):
        super().__init__(args, *given, **named)
        begun[self.pid] = part_of(args, named.get("cwd"))


def waitpid(pid, options):
    """As os.waitpid, and counts what the process took."""
    pid, status, used = os.wait4(pid, options)
    if pid:
        spent[begun.pop(pid, REST)] += used.ru_utime + used.ru_stime
    return pid, status


class Log(io.RawIOBase):
    """Standard output for rt: passes all on to standard error, and keeps the end of it."""

    end = b""

    def writable(self):
        return True

    def fileno(self):
        return 2

    def write(self, piece):
        piece = bytes(piece)
        at = 0
        while at < len(piece):
            at += os.write(2, piece[at:])
        self.end = (self.end + piece)[-2000:]
        return len(piece)


def lines_of(crate):
    """Returns how many lines of code, specs and proofs a crate has."""
    found = 0
    for at, folders, files in os.walk(f"crates/{crate}"):
        folders[:] = [it for it in folders if it != "out"]
        for name in files:
            if name.endswith((".rt", ".antt")):
                with open(f"{at}/{name}", "rb") as it:
                    found += it.read().count(b"\n")
    return found


def run_rt(names):
    """Runs rt, and returns its exit status and its last line."""
    rt = os.path.realpath(shutil.which("rt"))
    log, was, argv = Log(), sys.stdout, sys.argv
    subprocess.Popen, os.waitpid = Popen, waitpid
    sys.argv = [rt, "ci", "--anew", *names]
    sys.stdout = io.TextIOWrapper(io.BufferedWriter(log), encoding="utf-8", errors="replace", line_buffering=True)
    try:
        runpy.run_path(rt, run_name="__main__")
        status = 0
    except SystemExit as ended:
        status = ended.code if isinstance(ended.code, int) else int(ended.code is not None)
    finally:
        sys.stdout.flush()
        sys.stdout, sys.argv = was, argv
    return status, log.end.decode(errors="replace").strip().rpartition("\n")[2]


def row(*cells):
    print("| " + " | ".join(cells) + " |")


def main(names):
    start = time.monotonic()
    status, last = run_rt(names)
    wall = (time.monotonic() - start) / 60
    minutes = lambda seconds: f"{seconds / 60:.1f}"
    of = lambda crate: [spent[crate, part] for part in PARTS]
    crates = sorted({crate for crate, _ in spent if crate}, key=lambda it: -sum(of(it)))
    lines = {it: lines_of(it) for it in crates}
    row("crate", "lines", *PARTS, "all")
    row("---", *["---:"] * 5)
    for it in crates:
        row(f"`{it}`", f"{lines[it]:,}", *map(minutes, of(it)), minutes(sum(of(it))))
    parts = [sum(spent[it, part] for it in crates) for part in PARTS]
    whole = sum(spent.values())
    row("links and runs", "", "", "", "", minutes(spent[REST]))
    row("whole", f"{sum(lines.values()):,}", *map(minutes, parts), minutes(whole))
    each = whole / 60 / max(sum(lines.values()), 1) * 1000
    print()
    print(f"Wall time: {wall:.1f} minutes on {len(os.sched_getaffinity(0))} processors. Processor minutes for each 1,000 lines: {each:.2f}.")
    print()
    print(last)
    print(f"exit status {status}")
    return status


if __name__ == "__main__":
    sys.exit(main(sys.argv[1:]))
