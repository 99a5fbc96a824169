#!/usr/bin/env python3
"""What a check costs: its time, its memory and its reads, beside what it may cost.

Scripts through the program make each aggregate, over a file in memory; then `flexvol FILE check` runs over it, and has to find it sound:

- a volume with one file of 100,000 blocks, and one of 400,000;
- a volume with a file of 20,000 blocks and 24 snapshots, one block written over behind each, so that tables share nearly all of their nodes;
- 64 volumes of the largest span in the largest aggregate, with no file; and the same with 24 snapshots of each.

The time is the least of five by the clock, with the start of the program. The memory is the most that was in use at once, as the system tells it of
the program alone. The reads are counted by strace, block by block. Which blocks hold data, and how many are in use, is read in the image by
docs/FORMAT.md. A table is printed as docs/LAYERS.md has it; a MB is 1,000,000 bytes. The bars, below, are for a machine at rest: the load stands
under the table. Where one is passed a line says so, and the status is 1.

The program is the one that ./prove or `rt ci` built here, no older than its sources; `--program` names another one, and `--quick` leaves the
larger aggregates out.
"""
import argparse
import collections
import os
import re
import shutil
import struct
import subprocess
import sys
import tempfile
import time

from lines import is_built
from names import CONTENT, replies
from points import BLOCK, PROGRAM

RUNS = 5
OVER = 20000  # blocks of the file with snapshots
SNAPSHOTS = 24
VOLUMES = 64
LARGEST = 1048576  # blocks of the largest aggregate
GREATEST = 500000  # the greatest size, whose span is the largest
HEAD = 1024  # the bytes of a container node before its entries
ENTRIES = 256
DATA, MAP = 1, 8  # kinds of entries

# Milliseconds and MB that a check may take, and how often it may read one block; None where nothing is said. The memory is 60 MB beyond what the
# parts of the check take for 64 volumes of the largest span: four bytes for each entry, and what one walk and one volume ask for. A bit for each
# VVBN of each snapshot comes to it, and the cache, which holds 16,384 blocks where there are so many to read.
Bars = collections.namedtuple("Bars", "time memory reads")
Case = collections.namedtuple("Case", "name blocks lines volumes bars is_large")


def file_lines(count):
    """A volume with a file of so many blocks."""
    return [f"vol create a {count + count // 20} none", "new a f", *(f"put a f {index} {index + 1:08x}" for index in range(count))]


def snapshot_lines():
    """The same with snapshots, and a block written over behind each."""
    lines = file_lines(OVER)
    for number in range(SNAPSHOTS):
        lines += [f"snap create a s{number}", f"put a f {number * OVER // SNAPSHOTS} {CONTENT}"]
    return lines


def volume_lines(snapshots):
    """Volumes of the largest span with so many snapshots each."""
    lines = []
    for volume in range(VOLUMES):
        lines.append(f"vol create v{volume} {GREATEST} none")
        lines += [f"snap create v{volume} s{number}" for number in range(snapshots)]
    return lines


CASES = [
    Case("100,000 blocks of a file", 131072, lambda: file_lines(100000), 1, Bars(115, None, 3), False),
    Case("400,000 blocks of a file", 524288, lambda: file_lines(400000), 1, Bars(460, None, 3), True),
    Case(f"{OVER:,} blocks of a file, with {SNAPSHOTS} snapshots", 65536, snapshot_lines, 1, Bars(None, None, 3), False),
    Case(f"{VOLUMES} volumes of the largest span", LARGEST, lambda: volume_lines(0), VOLUMES, Bars(None, 430, 3), False),
    Case(f"{VOLUMES} with {SNAPSHOTS} snapshots each", LARGEST, lambda: volume_lines(SNAPSHOTS), VOLUMES, Bars(None, None, 3), True),
]


def make(program, path, case):
    """Makes an aggregate."""
    subprocess.run([program, path, "create", str(case.blocks)], check=True, stdout=subprocess.DEVNULL)
    for line, reply in zip(case.lines(), replies(program, path, case.lines())):
        assert reply == "ok", (line, reply)


# ---- the image, by docs/FORMAT.md


def word(data, at):
    return int.from_bytes(data[at : at + 8], "big")


class Image:
    """The blocks that an aggregate has in use, each with its kind: labels and nodes of containers have 0."""

    def __init__(self, path):
        self.kinds = {}
        with open(path, "rb") as self.file:
            roots = [self.block(3 + slot) for slot in (0, 1) if self.block(1 + slot)[:8] == b"GATEOPEN"]
            root = max(roots, key=lambda data: word(data, 8))
            for slot in range(VOLUMES):
                if label := word(root, 64 + 8 * slot):
                    self.kinds[label] = 0
                    self.read_node(word(self.block(label), 152))

    def block(self, number):
        return os.pread(self.file.fileno(), BLOCK, number * BLOCK)

    def read_node(self, place):
        self.kinds[place] = 0
        data = self.block(place)
        if data[:8] == b"FVCINNER":
            for child in filter(None, struct.unpack_from(f">{ENTRIES}Q", data, HEAD)):
                self.read_node(child)
        else:
            entries = struct.unpack_from(">" + "QI" * ENTRIES, data, HEAD)
            self.kinds.update((at, kind) for at, kind in zip(entries[0::2], entries[1::2]) if kind)


# ---- runs


def check(program, path, case, prefix=(), **how):
    """Starts a check, and answers it as it runs."""
    return subprocess.Popen([*prefix, program, path, "check"], stdout=subprocess.PIPE, **how)


def end(child, case):
    """Waits for a check, which finds nothing."""
    said = child.communicate()[0]
    assert child.returncode == 0 and said.startswith(b"valid volumes %d charged " % case.volumes), (child.returncode, said)


def milliseconds(program, path, case):
    """The least time of some runs."""

    def once():
        before = time.perf_counter()
        end(check(program, path, case), case)
        return 1000 * (time.perf_counter() - before)

    return min(once() for _ in range(RUNS))


def memory(program, path, case):
    """The most MB that the program had in use at once. The system tells it as long as the program runs, so it is asked again and again."""
    child = check(program, path, case)
    most = 0
    while child.poll() is None:
        with open(f"/proc/{child.pid}/status") as status:
            found = re.search(r"^VmHWM:\s+(\d+) kB$", status.read(), re.MULTILINE)
            most = int(found.group(1)) if found else most
    end(child, case)
    return most * 1024 / 1000000


def reads(program, path, case, folder):
    """How often each block is read."""
    log = os.path.join(folder, "calls")
    end(check(program, path, case, ("strace", "-f", "-qq", "-o", log, "-e", "trace=read,pread64,write,pwrite64")), case)
    counts = collections.Counter()
    for line in open(log):
        assert not re.search(r"\bp?write(?:64)?\((?!1,)", line), line
        if found := re.search(r"\bpread64\(\d+, .*, 4096, (\d+)\) = 4096$", line):
            counts[int(found.group(1)) // BLOCK] += 1
    return counts


# ---- the table


def beside(found, bar):
    """A number with its bar."""
    return f"{found:,.0f} | {'' if bar is None else f'{bar:,}'}"


def measure(program, folder, case):
    """Prints the row of an aggregate, and answers which of its bars are passed."""
    path = os.path.join(folder, "aggregate")
    make(program, path, case)
    kinds = Image(path).kinds
    counts = reads(program, path, case, folder)
    data = sum(count for block, count in counts.items() if kinds.get(block) == DATA)
    found = Bars(milliseconds(program, path, case), memory(program, path, case), max(counts.values()))
    os.remove(path)
    row = " | ".join(beside(*pair) for pair in zip(found, case.bars))
    print(f"| {case.name} | {len(kinds):,} | {row} | {sum(counts.values()):,} | {data:,} |", flush=True)
    passed = [f"{name} {at:,.0f}, over {bar:,}" for name, at, bar in zip(Bars._fields, found, case.bars) if bar is not None and at > bar]
    return [f"{case.name}: {what}" for what in [*passed, *(["data blocks are read"] if data else [])]]


def read_words(about, left_out):
    parser = argparse.ArgumentParser(description=about.split("\n")[0])
    parser.add_argument("--program", help="the program, where it isn't the one that is built here")
    parser.add_argument("--quick", action="store_true", help=f"leave {left_out} out")
    return parser.parse_args()


def program_of(words, name):
    """The program that is measured. Without it, and without strace, there is nothing to measure."""
    if not (words.program or is_built()):
        sys.exit(f"{name}: crates/flexvol/out/flexvol isn't built, or is older than its sources; ./prove builds it")
    if not shutil.which("strace"):
        sys.exit(f"{name}: strace isn't on the path")
    return words.program or PROGRAM


def tell_end(passed):
    """Prints the load and the bars that are passed. The status is 1 where one is."""
    print(f"\nLoad {os.getloadavg()[0]:.1f} on {os.cpu_count()} processors.")
    for what in passed:
        print(f"A bar is passed: {what}.")
    sys.exit(1 if passed else 0)


def main():
    words = read_words(__doc__, "the larger aggregates")
    program = program_of(words, "check")
    passed = []
    print("| Aggregate | Blocks in use | ms | Bar | MB | Bar | Reads of one block | Bar | Reads | Of data |\n" + "|---" * 10 + "|")
    with tempfile.TemporaryDirectory(dir="/dev/shm") as folder:
        for case in CASES:
            if not (words.quick and case.is_large):
                passed += measure(program, folder, case)
    tell_end(passed)


if __name__ == "__main__":
    main()
