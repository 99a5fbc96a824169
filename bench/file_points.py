#!/usr/bin/env python3
"""What scripts on a file of 1,024 blocks cost over a real file, for each block of the user.

It builds the program on first use and makes an aggregate of 65,536 blocks with one volume and one file. The file is written in order and
then written over in an order drawn from seed 7, each with a `cp` after 64 blocks. Then its blocks are asked for, none of which is in the
cache, and half of them once more, which all are. Each reply is compared with what was put.

Blocks written, barriers and blocks read are counted by strace, less those of an empty script over the same aggregate. Beside them stand
those that docs/FORMAT.md asks for: `Expected` counts them, and shares no step with the program. Beside a script that writes also stands the
limit: a plain loop of as many writes of 4096 bytes and as many fsyncs. Lines that read have their processor time beside: that of two
scripts of which one has more such lines, the difference divided by how many more; it moves with the load of the machine.
"""
import collections
import os
import random
import shutil
import subprocess
import sys
import tempfile

from points import PROGRAM, calls, fresh, limit, run

COUNT = 1024
EACH = 64
SIZE = 40000
WARM = 40  # how often half of the blocks is asked for once more where processor time is taken

SPAN = 81920  # the least multiple of 4096 that is at least twice the size and 256
MAPS = 3  # blocks of 32,768 bits that cover the span
ROOTS = 1  # the root over the two nodes that stand over the 321 leaves of the container
LABEL = 1
COMMIT = 5  # the older gate closed, a map area of two blocks, a root, the gate opened
BARRIERS = 3  # one behind each of: the gate closed; all else but the gate; the gate opened


class Expected:
    """Where the file's blocks stand in the volume, by docs/FORMAT.md, and what a `cp` writes of them.

    New blocks take numbers in order, from the least free one on, and in one run no number is taken again. The entry of an old number is delayed,
    until its leaf has 64 of them; there is room, so that no other is reclaimed.
    """

    def __init__(self):
        self.numbers = {"inode": 0}
        self.delayed = set()
        self.levels = 0
        self.begin()

    def begin(self):
        """A run begins: numbers are sought from the front again, and nothing of the file has been read."""
        self.next = 0
        self.known = set()
        self.changed = set()
        self.reads = 0

    def path(self, index):
        return [("node", level, index // 128**level) for level in range(self.levels, 0, -1)]

    def look(self, positions):
        """Reads those of the positions that lie on the disk and weren't read in this run."""
        new = {p for p in positions if p in self.numbers} - self.known
        self.reads += len(new)
        self.known |= new

    def put(self, index):
        self.look(["inode", *self.path(index)])
        while 128**self.levels <= index:
            self.levels += 1
            self.changed.add(("node", self.levels, 0))
        self.changed |= {"inode", ("cell", index), *self.path(index)}
        self.known |= self.changed

    def get(self, index):
        self.look(["inode", *self.path(index), ("cell", index)])

    def point(self):
        """How many blocks a consistency point writes."""
        held = set(self.numbers.values())
        self.delayed |= {self.numbers[position] for position in self.changed if position in self.numbers}
        for position in self.changed:
            while self.next in held:
                self.next += 1
            self.numbers[position] = self.next
            self.next += 1
        dirty = {self.numbers[position] // 256 for position in self.changed}
        written = len(self.changed)
        self.changed = set()
        self.delayed -= set(self.numbers.values())
        waiting = collections.Counter(number // 256 for number in self.delayed)
        dirty |= {leaf for leaf, count in waiting.items() if count >= 64}
        self.delayed = {number for number in self.delayed if waiting[number // 256] < 64}
        maps = range(SPAN, SPAN + MAPS)
        dirty |= {entry // 256 for entry in maps}
        leaves = dirty & {entry // 256 for entry in [*self.numbers.values(), *self.delayed, *maps]}
        inner = {leaf // 256 for leaf in dirty}
        return written + MAPS + len(leaves) + len(inner) + ROOTS + LABEL + COMMIT


def content(index, round):
    """The digits of a block: other ones for each index and round, and no zero at the end."""
    return b"%08x%08x" % (index, round * 16 + 7) * 512


def puts(order, round, expected):
    """A script that writes these blocks, with a `cp` after each 64, and how many blocks it is to write and to read and its barriers."""
    lines = []
    counts = {"write": 0, "sync": 0, "read": 0}
    expected.begin()
    for done, index in enumerate(order, 1):
        lines.append(b"put a f %d %s\n" % (index, content(index, round)))
        expected.put(index)
        if done % EACH == 0:
            lines.append(b"cp\n")
            counts["write"] += expected.point()
            counts["sync"] += BARRIERS
    counts["read"] = expected.reads
    return b"".join(lines), counts


def gets(order):
    return b"".join(b"get a f %d\n" % index for index in order)


def beside_empty(path, script, folder):
    """What a script calls over a copy of an aggregate, and how much of that is beside the calls of an empty script."""
    counts = []
    for text in (b"", script):
        copy = os.path.join(folder, "copy")
        shutil.copyfile(path, copy)
        counts.append(calls(copy, text, folder))
    empty, whole = counts
    return whole, {kind: whole[kind] - empty[kind] for kind in whole}


def processor(path, script):
    """The processor seconds of a script, its own and those of the system for it."""
    with tempfile.TemporaryFile() as lines:
        lines.write(script)
        lines.seek(0)
        child = subprocess.Popen([PROGRAM, path, "run"], stdin=lines, stdout=subprocess.DEVNULL)
        _, status, used = os.wait4(child.pid, 0)
        child.returncode = os.waitstatus_to_exitcode(status)
    assert child.returncode == 0, child.returncode
    return used.ru_utime + used.ru_stime


def replies(path, script):
    done = subprocess.run([PROGRAM, path, "run"], input=script, stdout=subprocess.PIPE, check=True)
    return done.stdout.split(b"\n")


def tell_writes(name, path, script, wanted, folder):
    """Tells what a script costs that writes, and runs it on the aggregate."""
    whole, beside = beside_empty(path, script, folder)
    seconds = run(path, script)
    plain = limit(folder, whole["write"], whole["sync"])
    print(
        f"{name}: {1000 * seconds:.0f} ms; for each block {beside['write'] / COUNT:.3f} blocks written ({wanted['write'] / COUNT:.3f} by the "
        f"format), {beside['sync'] / COUNT:.3f} barriers ({wanted['sync'] / COUNT:.3f}) and {beside['read'] / COUNT:.3f} blocks read "
        f"({wanted['read'] / COUNT:.3f}); the plain loop of all {whole['write']} writes and {whole['sync']} fsyncs: {1000 * plain:.0f} ms"
    )


def tell_reads(name, path, script, before, wanted, folder):
    """Tells how many blocks are read by a script behind lines that put blocks into the cache."""
    count = script.count(b"\n")
    _, lead = beside_empty(path, before, folder)
    whole, beside = beside_empty(path, before + script, folder)
    assert beside["write"] == 0, whole
    print(f"{name}: {(beside['read'] - lead['read']) / count:.3f} blocks read for each block ({wanted / count:.3f} by the format)")


def tell_times(name, path, script, before, times):
    """Tells the processor time of a line that reads, behind lines that put blocks into the cache."""
    more = processor(path, before + script * times) - processor(path, before)
    each = more / (times * script.count(b"\n"))
    print(f"{name}: {1000000 * each:.1f} us of the processor for each line, load {os.getloadavg()[0]:.0f}")


def has_files(path):
    """Whether the program writes files. Makes the volume and the file where it does."""
    return replies(path, b"vol create a %d none\nnew a f\n" % SIZE)[1] == b"ok"


def main():
    if not shutil.which("strace"):
        sys.exit("file_points: strace isn't there, so no calls are counted")
    with tempfile.TemporaryDirectory() as folder:
        path = os.path.join(folder, "aggregate")
        fresh(path)
        if not has_files(path):
            sys.exit("file_points: the program writes no file yet")
        expected = Expected()
        order = list(range(COUNT))
        tell_writes("written in order", path, *puts(order, 1, expected), folder)
        random.Random(7).shuffle(order)
        tell_writes("written over in another order", path, *puts(order, 2, expected), folder)
        assert replies(path, gets(order))[:COUNT] == [content(index, 2) for index in order]
        expected.begin()
        for index in order:
            expected.get(index)
        tell_reads("asked for, not in the cache", path, gets(order), b"", expected.reads, folder)
        half = gets(order[: COUNT // 2])
        tell_reads("asked for, in the cache", path, half, half, 0, folder)
        tell_times("asked for, not in the cache", path, gets(order), b"", 1)
        tell_times("asked for, in the cache", path, half, half, WARM)


if __name__ == "__main__":
    main()
