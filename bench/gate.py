#!/usr/bin/env python3
"""What a gate costs: runs `rt ci` with the words given and tells the processor seconds of each crate.

    bench/gate.py            the whole gate, as the budget in docs/LAYERS.md counts it: it must run from nothing

Words are handed on to `rt ci`, where a kit's has some.

It prints the table of docs/LAYERS.md: for each crate the seconds of its own proof and compiling, of its tests, of its must-fail edits
and of the runs of its program. Processor seconds are user and system time, sampled ten times a second from /proc; what ends between two
samples stands in the row `rest`. The lines of `rt ci` go to standard error, and its status is the status here.
"""
import os
import re
import resource
import subprocess
import sys
import threading
import time

TOP = os.path.dirname(os.path.dirname(os.path.realpath(__file__)))
KINDS = ("own", "tests", "edits", "runs")
TICK = os.sysconf("SC_CLK_TCK")


def text(path):
    try:
        with open(path, "rb") as file:
            return file.read()
    except OSError:
        return b""


def parents_and_ticks():
    """For each process its parent and the ticks that it has had."""
    found = {}
    for name in os.listdir("/proc"):
        if name.isdigit():
            stat = text(f"/proc/{name}/stat")
            fields = stat[stat.rfind(b")") + 2 :].split()
            if len(fields) > 12:
                found[int(name)] = (int(fields[1]), int(fields[11]) + int(fields[12]))
    return found


def said_of(process):
    """The crate and the kind of work of a process by its command line, or None."""
    words = text(f"/proc/{process}/cmdline").decode(errors="replace").split("\0")
    if "--crate-name" in words:
        crate = words[words.index("--crate-name") + 1]
        try:
            folder = os.readlink(f"/proc/{process}/cwd")
        except OSError:
            folder = ""
        if "rt-edit" in folder:
            return crate, "edits"
        return crate, "tests" if "--test" in words else "own"
    if words and (program := re.search(r"/crates/(\w+)/out/", words[0])):
        return program.group(1), "runs"
    return None


class Sampler(threading.Thread):
    """Adds up what the processes below one cost."""

    def __init__(self, root):
        super().__init__(daemon=True)
        self.root, self.work, self.ticks, self.ended = root, {}, {}, False

    def run(self):
        while not self.ended:
            self.sample()
            time.sleep(0.1)

    def sample(self):
        now = parents_and_ticks()
        for process, (_, ticks) in now.items():
            line = self.line_to_root(process, now)
            if line is None:
                continue
            if process not in self.work or self.work[process] is None:
                self.work[process] = next((said for said in map(said_of, line) if said), None)
            self.ticks[process] = max(ticks, self.ticks.get(process, 0))

    def line_to_root(self, process, now):
        """The process and those above it up to the root, or None where it stands beside the root."""
        line = []
        while process in now and process != self.root:
            line.append(process)
            process = now[process][0]
        return line if process == self.root else None

    def seconds(self):
        """Seconds by crate and kind."""
        sums = {}
        for process, ticks in self.ticks.items():
            if said := self.work.get(process):
                crate, kind = said
                sums.setdefault(crate, dict.fromkeys(KINDS, 0.0))[kind] += ticks / TICK
        return sums


def table(sums, total):
    rows = ["| Crate | own | tests | edits | runs | all |", "|---|---|---|---|---|---|"]
    everything = dict.fromkeys(KINDS, 0.0)
    for crate, kinds in sorted(sums.items(), key=lambda row: -sum(row[1].values())):
        for kind in KINDS:
            everything[kind] += kinds[kind]
        cells = " | ".join(f"{kinds[kind]:.0f}" for kind in KINDS)
        rows.append(f"| `{crate}` | {cells} | {sum(kinds.values()):.0f} |")
    rest = total - sum(everything.values())
    rows.append(f"| rest | {rest:.0f} | | | | {rest:.0f} |")
    cells = " | ".join(f"{everything[kind]:.0f}" for kind in KINDS)
    rows.append(f"| all | {cells} | {total:.0f} |")
    return "\n".join(rows)


def main():
    began = time.monotonic()
    gate = subprocess.Popen(["rt", "ci", *sys.argv[1:]], cwd=TOP, stdout=sys.stderr)
    sampler = Sampler(gate.pid)
    sampler.start()
    status = gate.wait()
    sampler.ended = True
    sampler.join()
    used = resource.getrusage(resource.RUSAGE_CHILDREN)
    total = used.ru_utime + used.ru_stime
    print(table(sampler.seconds(), total))
    print(f"{total / 60:.0f} processor minutes, {(time.monotonic() - began) / 60:.0f} minutes on {os.cpu_count()} processors")
    sys.exit(status)


main()
