#!/usr/bin/env python3
"""What consistency points write of containers in which blocks wait to be given back.

Scripts run over a real file, part by part; each part ends with a `cp`. Between two parts the image is read by docs/FORMAT.md alone, so that for each
point these are counted:

- the blocks that it writes, by strace, and the leaves of containers among them: those that lie elsewhere than before; beside them all leaves;
- how many of the leaves have a new entry or are those of a region that was reclaimed, so that an entry became a hole. A leaf without an entry
  isn't written. No other leaf has to be written;
- how many these would be if the point made a hole for each block that was freed since the last one;
- how many regions it reclaims, which regions have delayed entries behind it, and how many;
- its processor time with that of the lines before it, taken from the system between two replies, the least of three runs without strace.

The cases, each over an aggregate of 65,536 blocks where nothing else is said:

- `file`: a file of 20,000 blocks is written, 200 for each point, removed by one line, written again, and cut by 50 blocks for each point;
- `small`: 78 files of 250 blocks, and for each point the last block of 39 of them is cut off, in turn, so that one goes in each of many regions;
- `tight`: the same files, of which that block is written over, in an aggregate that has hardly more blocks than the volume commits, so that points
  have to reclaim what waits: where a block is cut off, what is used falls by as many as are delayed, and nothing comes to lack;
- `volumes`: one block is put for each point into one volume, which stands alone, or beside 39 others; these have no delayed entry, or some.

It builds the program on first use; `--program` names another one.
"""
import argparse
import collections
import os
import re
import shutil
import struct
import subprocess
import sys
import tempfile

from points import BLOCK, BLOCKS, PROGRAM, need_program

COUNT = 20000
EACH = 200  # puts for each point while a file is written
CUT = 50
FILES = 78
ONCE = 39  # of these files so many are cut for each point; with more one would come between
LONG = 250  # blocks of each of these files, so that each fills about one region
ROUNDS = 70
VOLUMES = 40
TIMES = 3
REGION = 256  # entries of a leaf
MAP = 32768  # bits of a block of a map

Part = collections.namedtuple("Part", "name lines")
Point = collections.namedtuple("Point", "points leaves all needed eager reclaimed regions delayed most")


# ---- the image, by docs/FORMAT.md


def word(data, at):
    return int.from_bytes(data[at : at + 8], "big")


class Volume:
    """A volume of an image: the places of its leaves, the places under its VVBNs, and which VVBNs it holds."""

    def __init__(self, block, label):
        data = block(label)
        self.span = word(data, 104)
        self.map_blocks = -(-self.span // MAP)
        self.leaves = {}
        self.places = {}
        self.read_node(block, word(data, 152), word(data, 160), 0)
        self.used = [0] + [slot for slot in range(1, 25) if word(data, 256 + 128 * (slot - 1))]
        self.bits = b"".join(self.map_block(block, number) for number in range(self.map_blocks))

    def read_node(self, block, place, level, number):
        data = block(place)
        if level == 0:
            self.leaves[number] = place
            entries = struct.unpack(">" + "QI" * REGION, data[1024:])[0::2]
            self.places.update((number * REGION + at, entry) for at, entry in enumerate(entries) if entry)
            return
        for at, child in enumerate(struct.unpack(">256Q", data[1024:3072])):
            if child:
                self.read_node(block, child, level - 1, number * 256 + at)

    def map_block(self, block, number):
        """The bits of a block of all maps together."""
        bits = 0
        for slot in self.used:
            bits |= int.from_bytes(block(self.places[self.span + slot * self.map_blocks + number]), "little")
        return bits.to_bytes(BLOCK, "little")

    def holds(self, vvbn):
        if vvbn < self.span:
            return self.bits[vvbn >> 3] >> (vvbn & 7) & 1 == 1
        return (vvbn - self.span) // self.map_blocks in self.used

    def delayed(self):
        """How many delayed entries each region has that has some."""
        return collections.Counter(vvbn // REGION for vvbn in self.places if not self.holds(vvbn))


class Image:
    """The volumes of an aggregate, and the generation of its root."""

    def __init__(self, path):
        with open(path, "rb") as file:

            def block(number):
                return os.pread(file.fileno(), BLOCK, number * BLOCK)

            roots = [block(3 + slot) for slot in (0, 1) if block(1 + slot)[:8] == b"GATEOPEN"]
            root = max(roots, key=lambda data: word(data, 8))
            self.generation = word(root, 8)
            labels = [word(root, 64 + 8 * slot) for slot in range(64)]
            self.volumes = {slot: Volume(block, label) for slot, label in enumerate(labels) if label}


def compare(old, new):
    """What the points between two images of one volume did to its leaves."""
    written = {number for number, place in new.leaves.items() if old.leaves.get(number) != place}
    added = {vvbn // REGION for vvbn, place in new.places.items() if old.places.get(vvbn) != place}
    reclaimed = {vvbn // REGION for vvbn in old.places if vvbn not in new.places}
    freed = {vvbn // REGION for vvbn in old.places if old.holds(vvbn) and not new.holds(vvbn)}
    held = {vvbn // REGION for vvbn in new.places if new.holds(vvbn)}
    needed = (added | reclaimed) & new.leaves.keys()
    return len(written), len(new.leaves), len(needed), len((added | freed) & held), len(reclaimed)


def point_between(before, after):
    """What the points between two images did, over all volumes that are in both."""
    pairs = [(before.volumes[slot], volume) for slot, volume in after.volumes.items() if slot in before.volumes]
    sums = [sum(column) for column in zip(*(compare(old, new) for old, new in pairs))]
    waiting = [count for volume in after.volumes.values() for count in volume.delayed().values()]
    return Point(after.generation - before.generation, *sums, len(waiting), sum(waiting), max(waiting, default=0))


# ---- runs


class Program:
    """The program, over files in a folder."""

    def __init__(self, program, folder, runs):
        self.program = program
        self.folder = folder
        self.runs = runs

    def create(self, name, blocks, lines):
        """An aggregate in which a script ran."""
        path = os.path.join(self.folder, name)
        if self.program is None:
            need_program()
        subprocess.run([self.program or PROGRAM, path, "create", str(blocks)], check=True, stdout=subprocess.DEVNULL)
        child = self.start(path)
        ask(child, lines)
        finish(child)
        return path

    def start(self, path, prefix=()):
        words = [*prefix, self.program or PROGRAM, path, "run"]
        return subprocess.Popen(words, stdin=subprocess.PIPE, stdout=subprocess.PIPE)

    def counted(self, path, parts):
        """The blocks written by each part and what its point did, in one run over a copy."""
        copy = os.path.join(self.folder, "copy")
        log = os.path.join(self.folder, "calls")
        shutil.copyfile(path, copy)
        child = self.start(copy, ("strace", "-f", "-qq", "-o", log, "-e", "trace=write,pwrite64"))
        ask(child, ["vol list"])
        before = Image(copy)
        points = []
        for part in parts:
            ask(child, part.lines)
            after = Image(copy)
            points.append(point_between(before, after))
            before = after
        finish(child)
        return list(zip(written(log, parts), points))

    def times(self, path, parts):
        """The processor seconds of each part, the least of some runs; 0 where none is wanted."""
        copy = os.path.join(self.folder, "copy")
        runs = []
        for _ in range(self.runs):
            shutil.copyfile(path, copy)
            child = self.start(copy)
            ask(child, ["vol list"])
            marks = [on_processor(child)]
            for part in parts:
                ask(child, part.lines)
                marks.append(on_processor(child))
            finish(child)
            runs.append([after - before for before, after in zip(marks, marks[1:])])
        return [min(times) for times in zip(*runs)] if runs else [0] * len(parts)


def ask(child, lines):
    """Hands lines over, some at a time, and takes their replies."""
    for first in range(0, len(lines), 100):
        some = lines[first : first + 100]
        child.stdin.write("".join(line + "\n" for line in some).encode())
        child.stdin.flush()
        for line in some:
            reply = child.stdout.readline()
            assert line == "vol list" or reply == b"ok\n", (line, reply)


def finish(child):
    child.stdin.close()
    child.stdout.read()
    assert child.wait() == 0


def on_processor(child):
    """The seconds for which a process has been on a processor."""
    with open(f"/proc/{child.pid}/schedstat") as stat:
        return int(stat.read().split()[0]) / 1e9


def written(log, parts):
    """The blocks written in each part, by the calls between two replies. The first reply is that to the line before all parts."""
    counts = [0]
    for line in open(log):
        if re.search(r"\bwrite\(1, ", line):
            counts.append(0)
        elif re.search(r"\bpwrite64\(\d+, .* = 4096$", line):
            counts[-1] += 1
    at = 1
    for part in parts:
        yield sum(counts[at : at + len(part.lines)])
        at += len(part.lines)


# ---- what is told


def spread(numbers):
    """A number of each point: the mean, and the greatest where it isn't that of each."""
    mean = sum(numbers) / len(numbers)
    return f"{mean:.0f}" if max(numbers) == min(numbers) else f"{mean:.1f} (at most {max(numbers)})"


def tell(case, program, path, parts):
    """Prints a row for each name of parts: means over its points, and how it is behind the last of them."""
    counted = program.counted(path, parts)
    rows = collections.OrderedDict()
    for part, (blocks, point), seconds in zip(parts, counted, program.times(path, parts)):
        rows.setdefault(part.name, []).append((blocks, point, seconds))
    for name, row in rows.items():
        points = [point for _, point, _ in row]

        def each(field):
            return spread([getattr(point, field) for point in points])

        print(
            f"{case}, {name}: {sum(point.points for point in points)} points; for each {spread([blocks for blocks, _, _ in row])} blocks written, "
            f"{each('leaves')} leaves of {each('all')}, where {each('needed')} have to be, and {each('eager')} with a hole for each free; "
            f"{each('reclaimed')} regions reclaimed; then {each('delayed')} delayed entries in {each('regions')} regions, at most "
            f"{max(point.most for point in points)} in one; {spread_times([seconds for _, _, seconds in row])} ms of the processor, "
            f"load {os.getloadavg()[0]:.0f}",
            flush=True,
        )


def spread_times(seconds):
    mean = 1000 * sum(seconds) / len(seconds)
    return f"{mean:.2f}" if len(seconds) == 1 else f"{mean:.2f} (at most {1000 * max(seconds):.2f})"


# ---- the cases


def puts(file, first, last, content):
    return [f"put a {file} {index} {index + content:08x}" for index in range(first, last)]


def writes(name, count, content):
    """Parts that write a file in order."""
    firsts = range(0, count, EACH)
    return [Part(name, [*puts("f", first, min(first + EACH, count), content), "cp"]) for first in firsts]


def tell_file(program, count):
    path = program.create("aggregate", BLOCKS, [f"vol create a {count + count // 64 + 2000} none", "new a f"])
    cuts = [Part(f"cut by {CUT}", [f"cut a f {length}", "cp"]) for length in range(count - CUT, -1, -CUT)]
    parts = [
        *writes("written", count, 1),
        Part("a point alone", ["cp"]),
        Part("removed", ["rm a f", "cp"]),
        Part("a point behind it", ["cp"]),
        Part("the file anew", ["new a f", "cp"]),
        *writes("written again", count, 2),
        *cuts,
        Part("a point behind them", ["cp"]),
    ]
    tell(f"a file of {count} blocks", program, path, parts)


def filled(files):
    """Lines that make a volume with files of as many blocks each."""
    lines = [f"vol create a {COUNT + COUNT // 64 + 2000} none"]
    for number in range(files):
        lines.append(f"new a f{number:02d}")
        lines += puts(f"f{number:02d}", 0, LONG, number)
        lines.append("cp")
    return lines


def tell_small(program, name, blocks, files, change):
    path = program.create("aggregate", blocks, filled(files))
    parts = []
    for round in range(1, ROUNDS + 1):
        for first in range(0, files, ONCE):
            some = range(first, min(first + ONCE, files))
            parts.append(Part("all points", [*(change(f"f{number:02d}", LONG - round) for number in some), "cp"]))
    tell(f"{files} files of {LONG} blocks, one {name} of {min(files, ONCE)} for each point, {blocks} blocks in all", program, path, parts)


def cut(file, index):
    return f"cut a {file} {index}"


def written_over(file, index):
    return f"put a {file} {index} {index + 77:08x}"


def committed(program, files):
    """The blocks that the volume of these files commits, in the words of `vol stat`."""
    path = program.create("aggregate", BLOCKS, filled(files))
    done = subprocess.run([program.program or PROGRAM, path, "run"], input=b"vol stat a\n", stdout=subprocess.PIPE, check=True)
    return int(re.search(rb" commit (\d+) ", done.stdout).group(1))


def tell_tight(program, files):
    more = committed(program, files) + 256 + 400
    blocks = more + 5 + 2 * -(-more // MAP)
    tell_small(program, "written over", blocks, files, written_over)


def volume_lines(number, waits):
    """Lines that make a volume with a file of some blocks, and where it is asked for with some delayed entries."""
    name = f"v{number:02d}"
    lines = [f"vol create {name} {COUNT} none", f"new {name} f", *(f"put {name} f {index} {index + 1:02x}" for index in range(40)), "cp"]
    if waits:
        lines += [f"cut {name} f 30", "cp"]
    return lines


def tell_volumes(program, volumes, waits):
    lines = [line for number in range(volumes) for line in volume_lines(number, waits and 0 < number)]
    path = program.create("aggregate", BLOCKS, lines)
    parts = []
    for round in range(30):
        part = "the first point" if round == 0 else "the others"
        parts.append(Part(part, [f"put v00 f {round} {round + 7:04x}", "cp"]))
    tell(f"{volumes} volumes, one changed{', delayed entries in the others' * waits}", program, path, parts)


def main():
    words = argparse.ArgumentParser(description="counts what points write where blocks wait to be given back")
    words.add_argument("--program", help="a program that is built already")
    words.add_argument("--count", type=int, default=COUNT, help="the blocks of the file")
    words.add_argument("--files", type=int, default=FILES, help="the files of which one block is cut off for each point")
    words.add_argument("--times", type=int, default=TIMES, help="the runs for processor times; with 0 only blocks are counted")
    words.add_argument("cases", nargs="*", default=["file", "small", "tight", "volumes"])
    chosen = words.parse_args()
    if not shutil.which("strace"):
        sys.exit("delays: strace isn't there, so no calls are counted")
    with tempfile.TemporaryDirectory() as folder:
        program = Program(chosen.program, folder, chosen.times)
        if "file" in chosen.cases:
            tell_file(program, chosen.count)
        if "small" in chosen.cases:
            tell_small(program, "cut off", BLOCKS, chosen.files, cut)
        if "tight" in chosen.cases:
            tell_tight(program, chosen.files)
        if "volumes" in chosen.cases:
            tell_volumes(program, 1, False)
            tell_volumes(program, VOLUMES, False)
            tell_volumes(program, VOLUMES, True)


if __name__ == "__main__":
    main()
