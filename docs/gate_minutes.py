#!/usr/bin/env python3
"""Runs a command such as `rt ci` and prints a table of the processor minutes that each crate took, by kind of work.

    python3 docs/gate_minutes.py rt ci > /tmp/ci.log        # the table goes to standard error, at the end

It reads /proc twice a second, so a process that lives for less is missed. Times are of one core: user and system time, summed over all processes.
"""
import os
import subprocess
import sys
import threading
import time

TICKS = os.sysconf("SC_CLK_TCK")
KINDS = ["check", "again for edits", "edits", "tests", "compile"]


def processes():
    """Yields number, parent, processor seconds and start of each process that can be read."""
    for name in os.listdir("/proc"):
        if not name.isdigit():
            continue
        try:
            text = open(f"/proc/{name}/stat").read()
        except OSError:
            continue
        rest = text[text.rindex(")") + 2 :].split()
        yield int(name), int(rest[1]), (int(rest[11]) + int(rest[12])) / TICKS, rest[19]


def kind_of(number):
    """Returns the crate and the kind of work of a process, or None where it is none of the gate's."""
    try:
        words = open(f"/proc/{number}/cmdline").read().split("\0")
    except OSError:
        return None
    program = os.path.basename(words[0])
    if program not in ("rattle", "clang") or "--crate-name" not in words:
        return ("all programs", "compile") if program == "clang" else None
    crate = words[words.index("--crate-name") + 1]
    kept = words[words.index("--incremental") + 1] if "--incremental" in words else ""
    if "--test" in words:
        return crate, "tests"
    if kept:
        return crate, "again for edits" if kept.endswith("/seed") else "edits"
    return crate, "compile" if "--crate-checked" in words else "check"


def watch(root, seen):
    while os.path.exists(f"/proc/{root}"):
        table = list(processes())
        parents = {number: parent for number, parent, _, _ in table}
        for number, _, seconds, start in table:
            above = number
            while above not in (0, root):
                above = parents.get(above, 0)
            key = number, start
            if above == root and (key in seen or kind_of(number)):
                what = seen[key][0] if key in seen else kind_of(number)
                seen[key] = what, seconds
        time.sleep(0.5)


def main():
    command = subprocess.Popen(sys.argv[1:])
    seen = {}
    thread = threading.Thread(target=watch, args=(command.pid, seen), daemon=True)
    thread.start()
    status = command.wait()
    total = {}
    for (crate, kind), seconds in seen.values():
        total.setdefault(crate, dict.fromkeys(KINDS, 0.0))[kind] += seconds / 60
    print("| crate |", " | ".join(KINDS), "| all |", file=sys.stderr)
    print("|---" * (len(KINDS) + 2) + "|", file=sys.stderr)
    for crate, row in sorted(total.items(), key=lambda it: -sum(it[1].values())):
        print(f"| {crate} |", " | ".join(f"{row[kind]:.1f}" for kind in KINDS), f"| {sum(row.values()):.1f} |", file=sys.stderr)
    sums = [sum(row[kind] for row in total.values()) for kind in KINDS]
    print("| all |", " | ".join(f"{it:.1f}" for it in sums), f"| {sum(sums):.1f} |", file=sys.stderr)
    return status


sys.exit(main())
