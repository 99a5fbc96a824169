#!/usr/bin/env python3
"""What a snapshot costs over a real file: made, written over and removed, and opened again.

For each number of blocks it makes an aggregate of 65,536 blocks, and in it a volume with one file of so many. Then a script of `snap create`, 256
`put` lines that lie evenly over the file, `cp`, `snap delete` and `cp` runs on a copy. It prints for each part the blocks that were written and
read, counted by strace from one reply to the next, and the processor time, taken from the system between two replies, the least of five. A
point comes by itself within the puts, since they are more than the dirty limit.

After that the volume gets 24 snapshots, with a block written over before each, and an empty script is run. It prints how many blocks opening
reads, and of which kind: the labels, the nodes of containers and the blocks of maps and files are found in the image by docs/FORMAT.md alone.
"""
import os
import re
import shutil
import subprocess
import sys
import tempfile

from points import BLOCK, PROGRAM, fresh, run

EACH = 200  # puts for each `cp` while the file is written
OVER = 256
SNAPSHOTS = 24
TIMES = 5
HEAD = 1024  # the bytes of a container node before its entries
MAP_KIND = 8


def make(path, count):
    """An aggregate with a volume that has a file of so many blocks."""
    fresh(path)
    lines = [f"vol create a {count + count // 64 + 2000} none", "new a f"]
    for index in range(count):
        lines.append(f"put a f {index} {index + 1:08x}")
        if index % EACH == EACH - 1:
            lines.append("cp")
    run(path, "".join(line + "\n" for line in lines).encode())


def parts(count):
    """The parts of the script, each a name with its lines."""
    puts = [f"put a f {number * count // OVER} {number + 1:08x}" for number in range(OVER)]
    return [
        ("snap create", ["snap create a s"]),
        ("256 puts", puts),
        ("cp", ["cp"]),
        ("snap delete", ["snap delete a s"]),
        ("cp behind it", ["cp"]),
    ]


def by_lines(path, script, folder):
    """Blocks written and read before each reply, from the first one on; those of opening stand with the first line."""
    log = os.path.join(folder, "calls")
    run(path, script, ("strace", "-f", "-qq", "-o", log, "-e", "trace=read,write,pread64,pwrite64"))
    counts = [{"write": 0, "read": 0}]
    for line in open(log):
        if re.search(r"\bwrite\(1, ", line):
            counts.append({"write": 0, "read": 0})
        elif found := re.search(r"\bp?(read|write)(?:64)?\((\d+), .* = 4096$", line):
            if int(found.group(2)) > 2:
                counts[-1][found.group(1)] += 1
    return counts


def on_processor(child):
    """The seconds for which a process has been on a processor."""
    with open(f"/proc/{child.pid}/schedstat") as stat:
        return int(stat.read().split()[0]) / 1e9


def times(path, all_parts):
    """The processor seconds of each part, with the lines handed over part by part."""
    child = subprocess.Popen([PROGRAM, path, "run"], stdin=subprocess.PIPE, stdout=subprocess.PIPE)
    ask(child, ["vol list"])
    seconds = []
    for _, lines in all_parts:
        before = on_processor(child)
        ask(child, lines)
        seconds.append(on_processor(child) - before)
    child.stdin.close()
    child.stdout.read()
    assert child.wait() == 0
    return seconds


def ask(child, lines):
    child.stdin.write("".join(line + "\n" for line in lines).encode())
    child.stdin.flush()
    for line in lines:
        reply = child.stdout.readline()
        assert line == "vol list" or reply == b"ok\n", (line, reply)


def tell_cycle(path, count, folder):
    all_parts = parts(count)
    copy = os.path.join(folder, "copy")
    shutil.copyfile(path, copy)
    script = "vol list\n" + "".join(line + "\n" for _, lines in all_parts for line in lines)
    counts = by_lines(copy, script.encode(), folder)
    least = None
    for _ in range(TIMES):
        shutil.copyfile(path, copy)
        seconds = times(copy, all_parts)
        least = seconds if least is None else [min(pair) for pair in zip(least, seconds)]
    at = 1
    for (name, lines), seconds in zip(all_parts, least):
        part = counts[at : at + len(lines)]
        at += len(lines)
        print(
            f"{count} blocks, {name}: {sum(one['write'] for one in part)} blocks written and {sum(one['read'] for one in part)} read; "
            f"{1000 * seconds:.2f} ms of the processor, load {os.getloadavg()[0]:.0f}"
        )


class Image:
    """Of which kind the blocks of an aggregate are, by docs/FORMAT.md."""

    def __init__(self, path):
        with open(path, "rb") as file:
            self.bytes = file.read()
        roots = [block for block in (3, 4) if self.bytes[(block - 2) * BLOCK :][:8] == b"GATEOPEN"]
        root = max(roots, key=lambda block: self.word(block, 1))
        self.kinds = {}
        for slot in range(64):
            if label := self.word(root, 8 + slot):
                self.kinds[label] = "label"
                self.node(self.word(label, 19))

    def word(self, block, number):
        return int.from_bytes(self.bytes[block * BLOCK + 8 * number :][:8], "big")

    def node(self, block):
        self.kinds[block] = "node"
        data = self.bytes[block * BLOCK : (block + 1) * BLOCK]
        if data[:8] == b"FVCINNER":
            for at in range(HEAD, HEAD + 256 * 8, 8):
                if child := int.from_bytes(data[at : at + 8], "big"):
                    self.node(child)
        else:
            for at in range(HEAD, HEAD + 256 * 12, 12):
                if place := int.from_bytes(data[at : at + 8], "big"):
                    is_map = int.from_bytes(data[at + 8 : at + 12], "big") == MAP_KIND
                    self.kinds[place] = "map" if is_map else "file"


def tell_opening(path, count, folder):
    lines = []
    for number in range(SNAPSHOTS):
        lines += [f"put a f {number * 128} {number + 7:08x}", f"snap create a s{number}"]
    run(path, "".join(line + "\n" for line in lines).encode())
    image = Image(path)
    log = os.path.join(folder, "calls")
    run(path, b"", ("strace", "-f", "-qq", "-o", log, "-e", "trace=pread64,write,pwrite64"))
    reads = []
    for line in open(log):
        if re.search(r"\bp?write(?:64)?\(", line):
            break
        if found := re.search(r"\bpread64\(\d+, .*, 4096, (\d+)\) = 4096$", line):
            reads.append(int(found.group(1)) // BLOCK)
    kinds = [image.kinds.get(block, "fixed") for block in reads]
    wanted = sum(kind == "map" for kind in image.kinds.values())
    print(
        f"{count} blocks and {SNAPSHOTS} snapshots: opening reads {len(reads)} blocks, {len(reads) - len(set(reads))} of them again: "
        f"{kinds.count('map')} of the {wanted} blocks of maps, {kinds.count('file')} of files, {kinds.count('label')} label, "
        f"{kinds.count('node')} nodes of the container and {kinds.count('fixed')} that are the aggregate's own"
    )


def main():
    if not shutil.which("strace"):
        sys.exit("snapshots: strace isn't there, so no calls are counted")
    for count in (5000, 20000):
        with tempfile.TemporaryDirectory() as folder:
            path = os.path.join(folder, "aggregate")
            make(path, count)
            tell_cycle(path, count, folder)
            tell_opening(path, count, folder)


if __name__ == "__main__":
    main()
