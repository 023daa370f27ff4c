#!/usr/bin/env python3
"""Runs a command in a folder and samples the prover's processes under it each second: processor seconds by crate and kind.

    sample.py FOLDER COMMAND..

A process counts for the crate that its arguments name: as an edit where it runs in a folder of its own outside the crate, as a
test where it is told to check tests, else as a proof. What a process used in its last second is lost, so the figures are a little
low. The last lines are the totals, the time by the clock and the command's status."""
import os
import subprocess
import sys
import time

TICKS = os.sysconf("SC_CLK_TCK")
KINDS = ("proofs", "tests", "edits")


def children():
    """The parent of each process."""
    parents = {}
    for name in os.listdir("/proc"):
        if name.isdigit():
            try:
                with open(f"/proc/{name}/stat") as it:
                    parents[int(name)] = int(it.read().rpartition(")")[2].split()[1])
            except OSError:
                pass
    return parents


def below(root, parents):
    """The processes that root started, and those that they started."""
    found = {root}
    grown = True
    while grown:
        more = {it for it, parent in parents.items() if parent in found} - found
        grown = bool(more)
        found |= more
    return found


def seen(process):
    """The crate, the kind and the processor seconds of a prover's process, or None where it is another."""
    try:
        with open(f"/proc/{process}/cmdline", "rb") as it:
            words = it.read().decode(errors="replace").split("\0")
        if "--crate-name" not in words:
            return None
        with open(f"/proc/{process}/stat") as it:
            fields = it.read().rpartition(")")[2].split()
        where = os.readlink(f"/proc/{process}/cwd")
    except OSError:
        return None
    crate = words[words.index("--crate-name") + 1]
    kind = "edits" if "/rt-edit" in where else "tests" if "--test" in words else "proofs"
    return crate, kind, (int(fields[11]) + int(fields[12])) / TICKS


def main():
    folder, command = sys.argv[1], sys.argv[2:]
    started = time.time()
    run = subprocess.Popen(command, cwd=folder)
    used, first, last = {}, {}, {}
    while run.poll() is None:
        for process in below(run.pid, children()):
            found = seen(process)
            if found:
                crate, kind, seconds = found
                used[process, crate, kind] = seconds
                now = time.time() - started
                first.setdefault(crate, now)
                last[crate, kind] = now
        time.sleep(1)
    total = {}
    for (_, crate, kind), seconds in used.items():
        total[crate, kind] = total.get((crate, kind), 0) + seconds
    crates = sorted({crate for crate, _ in total}, key=lambda it: -sum(total.get((it, kind), 0) for kind in KINDS))
    print("\n| Crate | proofs | tests | edits | begun | proved |\n|---|---|---|---|---|---|")
    for crate in crates:
        cells = " | ".join(f"{total.get((crate, kind), 0):.0f}" for kind in KINDS)
        print(f"| `{crate}` | {cells} | {first[crate]:.0f} | {last.get((crate, 'proofs'), 0):.0f} |")
    sums = " | ".join(f"{sum(total.get((it, kind), 0) for it in crates):.0f}" for kind in KINDS)
    print(f"| all | {sums} | | {time.time() - started:.0f} |")
    print(f"status {run.returncode}")
    return run.returncode


sys.exit(main())
