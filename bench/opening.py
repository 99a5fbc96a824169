#!/usr/bin/env python3
"""What an aggregate with volumes of the largest span costs a script that does little, beside what it may cost.

Scripts through the program make aggregates of 1,048,576 blocks, over a file in memory. Then three things are measured:

- `run` with an empty script, which opens the aggregate and makes a point, where 64 volumes of the largest span have no file, and where each has a
  file of 8,000 blocks: the time of the processor and the memory, less those of an aggregate without a volume; the blocks that opening reads, and
  the leaves of containers that the point reads;
- 1,000 puts in order into a new file of one of these volumes, with a `cp` behind each 64: behind the first `cp`, the nodes of containers that are
  read, the other blocks that are, which are those of the file over which it is written on, and how many are written;
- the same puts where the volume stands alone, once with the least span and once with the largest: the time of the processor for each put with its
  share of a `cp`, beside that of a plain loop that writes as many blocks, makes as many barriers and gives as many replies. A point writes the
  blocks of the volume's map anew, one or 31, so the bar is for the time by block written.

Reads are counted by strace, block by block: those of opening stand in front of the first read of the script. How many opening may make is counted
in the image by docs/FORMAT.md: the superblock, the gates, the roots behind open ones and the map; each label, each node above the leaves, each
leaf with an entry of a map, and the blocks of the maps, each once. A volume of the largest span has 51 of the last three kinds at most. The time
is the least of nine runs, or the middle one where a plain loop stands beside it. The memory is the most that was in use at once, as the system
tells it of the program alone, which is held at its last line for that. A MB is 1,000,000 bytes. The bars are for a machine at rest: the load
stands under the tables. Where one is passed a line says so, and the status is 1.

More than 8,000 blocks find no room in each of 64 volumes: beside its blocks each is promised its overhead of 3,973 blocks twice.

The program is the one that ./prove or `rt ci` built here, no older than its sources; `--program` names another one, and `--quick` leaves the volumes
with files out.
"""
import collections
import os
import re
import statistics
import subprocess
import tempfile
import time

from check import GREATEST, LARGEST, MAP, VOLUMES, Image, program_of, read_words, tell_end, word
from lines import plain_loop
from names import CONTENT, processor, replies
from names import count as cost_of
from points import BLOCK

RUNS = 9
COUNT = 8000  # blocks of the file of each volume
PUTS, EACH = 1000, 64
LEAST = 1500  # a size whose span is the least, 4,096
OF_VOLUME = 51  # nodes above the leaves, a leaf and blocks of the active map of a volume of the largest span
FIXED = 37  # the superblock, the gates, two roots, and a map of the largest aggregate
MILLISECONDS, MEGABYTES, LEAVES = 50, 60, 4096
SAME = 1.25  # with its share of a point a put may cost so many times as much by block written in the largest span as in the least

Opening = collections.namedtuple("Opening", "time memory reads leaves")


def file_lines(volume, name, count, each=None):
    """A file of so many blocks, and a `cp` behind each few of them."""
    lines = [f"new {volume} {name}"]
    for number in range(count):
        lines.append(f"put {volume} {name} {number} {CONTENT}")
        if each and number % each == each - 1:
            lines.append("cp")
    return lines


def make(program, path, lines, blocks=LARGEST):
    """Makes an aggregate of so many blocks, of the largest size if none are told."""
    if os.path.exists(path):
        os.remove(path)
    subprocess.run([program, path, "create", str(blocks)], check=True, stdout=subprocess.DEVNULL)
    assert set(replies(program, path, lines)) <= {"ok"}


def volume_lines(count):
    """Volumes of the largest span, each with a file of so many blocks, if any."""
    lines = [f"vol create v{number} {GREATEST} none" for number in range(VOLUMES)]
    if count:
        for number in range(VOLUMES):
            lines += file_lines(f"v{number}", "f", count)
    return lines


# ---- the image, by docs/FORMAT.md


class Opened(Image):
    """The blocks that an aggregate has in use, and what opening reads of them. No volume has a snapshot."""

    def __init__(self, path):
        self.leaves = {}
        super().__init__(path)
        with open(path, "rb") as file:
            gates = os.pread(file.fileno(), 2 * BLOCK, BLOCK)
            self.blocks = word(os.pread(file.fileno(), BLOCK, 0), 8)
        self.roots = sum(gates[at : at + 8] == b"GATEOPEN" for at in (0, BLOCK))

    def read_node(self, place):
        super().read_node(place)
        data = self.block(place)
        if data[:8] != b"FVCINNER":
            kinds = {int.from_bytes(data[at : at + 4], "big") for at in range(1024 + 8, BLOCK, 12)}
            self.leaves[place] = MAP in kinds

    def reads(self):
        """How many blocks opening reads."""
        nodes = sum(kind in (0, MAP) for kind in self.kinds.values()) - len(self.leaves)
        fixed = 3 + self.roots + -(-self.blocks // (8 * BLOCK))
        return fixed + nodes + sum(self.leaves.values())


# ---- an empty script


def empty_script(program, path):
    """Milliseconds of the processor that an empty script takes."""

    def once():
        child = subprocess.Popen([program, path, "run"], stdin=subprocess.DEVNULL, stdout=subprocess.PIPE)
        said = child.stdout.read()
        status, used = os.wait4(child.pid, 0)[1:]
        child.returncode = status
        assert said == b"done 0\n" and status == 0, (said, status)
        return 1000 * (used.ru_utime + used.ru_stime)

    return min(once() for _ in range(RUNS))


def filled_pipe():
    """A pipe without room for a byte, and how many it holds."""
    source, sink = os.pipe()
    os.set_blocking(sink, False)
    count = 0
    try:
        while True:
            count += os.write(sink, b"\n" * BLOCK)
    except BlockingIOError:
        os.set_blocking(sink, True)
        return source, sink, count


def memory(program, path):
    """The most MB that an empty script had in use at once. It can't give its last line, which comes after all else, until that was asked."""
    source, sink, count = filled_pipe()
    child = subprocess.Popen([program, path, "run"], stdin=subprocess.DEVNULL, stdout=sink)
    os.close(sink)
    still = most = 0
    while still < 20:
        time.sleep(0.01)
        with open(f"/proc/{child.pid}/status") as status:
            text = status.read()
        still = still + 1 if re.search(r"^State:\s+S", text, re.MULTILINE) else 0
        most = int(re.search(r"^VmHWM:\s+(\d+) kB$", text, re.MULTILINE).group(1))
    with os.fdopen(source, "rb") as file:
        said = file.read()
    assert child.wait() == 0 and said[count:] == b"done 0\n", said[count:]
    return most * 1024 / 1000000


def reads(program, path, folder):
    """How often each block is read by opening, and by the point behind an empty script."""
    log = os.path.join(folder, "calls")
    traced = ["strace", "-f", "-qq", "-o", log, "-e", "trace=read,pread64", program, path, "run"]
    subprocess.run(traced, stdin=subprocess.DEVNULL, stdout=subprocess.DEVNULL, check=True)
    opening, point = collections.Counter(), collections.Counter()
    counts = opening
    for line in open(log):
        if re.search(r"\bread\(0,", line):
            counts = point
        elif found := re.search(r"\bpread64\(\d+, .*, 4096, (\d+)\) = 4096$", line):
            counts[int(found.group(1)) // BLOCK] += 1
    return opening, point


def beside(found, bar):
    """A number with its bar."""
    return f"{found:,.0f} | {bar:,}"


def measure_opening(program, folder, path, name, bare):
    """Prints the row of an aggregate, and answers which of its bars are passed. `bare` has the time and the memory without a volume."""
    image = Opened(path)
    assert image.reads() <= OF_VOLUME * VOLUMES + VOLUMES + FIXED, image.reads()
    opening, point = reads(program, path, folder)
    assert set(point) <= set(image.leaves), "the point reads other blocks than leaves"
    found = Opening(empty_script(program, path) - bare[0], memory(program, path) - bare[1], sum(opening.values()), sum(point.values()))
    bars = Opening(MILLISECONDS, MEGABYTES, image.reads(), LEAVES)
    print(f"| {name} | {len(image.kinds):,} | {' | '.join(beside(*pair) for pair in zip(found, bars))} |", flush=True)
    return [f"{name}: {what} {at:,.0f}, over {bar:,}" for what, at, bar in zip(Opening._fields, found, bars) if at > bar]


# ---- puts with their points


def calls_beyond(program, path, lines, replied, folder):
    """The calls of the disk that a script makes once so many bytes of replies were given; reads of nodes of containers stand apart."""
    log = os.path.join(folder, "calls")
    traced = ["strace", "-f", "-qq", "-o", log, "-e", "trace=read,write,pread64,pwrite64,fsync,fdatasync", program, path, "run"]
    script = "".join(line + "\n" for line in lines).encode()
    subprocess.run(traced, input=script, stdout=subprocess.DEVNULL, check=True)
    counts = collections.Counter()
    given = 0
    for line in open(log):
        if found := re.search(r"\bwrite\(1, .* = (\d+)$", line):
            given += int(found.group(1))
        elif given >= replied:
            if re.search(r"\b(fsync|fdatasync)\(", line):
                counts["sync"] += 1
            elif found := re.search(r"\bp(read|write)64\(\d+, \"(FVC)?.* = 4096$", line):
                counts["node" if found.group(1) == "read" and found.group(2) else found.group(1)] += 1
    return counts


def beyond_first(program, path, folder):
    """The calls that puts into a new file and their points make behind the first point. Each line is answered by `ok`."""
    return calls_beyond(program, path, file_lines("v0", "g", PUTS, EACH), len("ok\n") * (1 + EACH + 1), folder)


def measure_puts(program, folder, path, name):
    """Prints the row of the puts into a volume of an aggregate, and answers whether a bar is passed."""
    counts = beyond_first(program, path, folder)
    print(f"| {name} | {beside(counts['node'], 0)} | {counts['read']:,} | {counts['write']:,} | {counts['sync']:,} |", flush=True)
    return [f"{name}: {counts['node']} nodes of containers are read behind the first point"] if counts["node"] else []


# ---- a put, by the span of its volume


def put_cost(program, folder, size):
    """For each put with its share of a point: microseconds of the program, of the plain loop, and blocks written."""
    path = os.path.join(folder, "aggregate")
    make(program, path, [f"vol create v0 {size} none"])

    def once():
        few, many = (cost_of(processor, program, path, file_lines("v0", "g", puts, EACH), folder) for puts in (EACH, PUTS))
        return many - few

    more = PUTS - EACH
    whole = statistics.median(once() for _ in range(RUNS))
    counts = beyond_first(program, path, folder)
    plain = statistics.median(plain_loop(folder, counts["write"], counts["sync"], more) for _ in range(RUNS))
    return whole / more, plain / more, counts["write"] / more


def measure_spans(program, folder):
    """Prints the rows of both spans, and answers whether the bar is passed."""
    by_block = []
    for span, size in (("4,096", LEAST), ("1,003,520", GREATEST)):
        whole, plain, written = put_cost(program, folder, size)
        by_block.append(whole / written)
        bar = "" if len(by_block) == 1 else f"{SAME * by_block[0]:.1f}"
        print(f"| {span} | {whole:.1f} | {plain:.1f} | {whole - plain:.1f} | {written:.2f} | {by_block[-1]:.1f} | {bar} |", flush=True)
    over = by_block[1] > SAME * by_block[0]
    return [f"a block costs {by_block[1]:.1f} in the largest span, over {SAME * by_block[0]:.1f}"] if over else []


def main():
    words = read_words(__doc__, "the volumes with files")
    program = program_of(words, "opening")
    passed = []
    cases = [(f"{VOLUMES} volumes of the largest span", 0), (f"the same with {COUNT:,} blocks each", COUNT)][: 1 if words.quick else 2]
    with tempfile.TemporaryDirectory(dir="/dev/shm") as folder:
        path = os.path.join(folder, "aggregate")
        make(program, path, [])
        bare = empty_script(program, path), memory(program, path)
        print(f"Without a volume: {bare[0]:.0f} ms and {bare[1]:.0f} MB. Beyond them:\n")
        print("| Aggregate | Blocks in use | ms | Bar | MB | Bar | Read by opening | Bar | Leaves read by the point | Bar |\n" + "|---" * 10 + "|")
        rows = []
        for name, count in cases:
            make(program, path, volume_lines(count))
            passed += measure_opening(program, folder, path, name, bare)
            rows.append((name, os.path.join(folder, f"with {count}")))
            os.rename(path, rows[-1][1])
        print(f"\n| {PUTS:,} puts, behind the first `cp` | Nodes of containers read | Bar | Other reads | Written | Barriers |\n" + "|---" * 6 + "|")
        for name, kept in rows:
            passed += measure_puts(program, folder, kept, name)
            os.remove(kept)
        print("\n| Span | us for a put with its share | Plain loop | Beyond it | Written | us by block | Bar |\n" + "|---" * 7 + "|")
        passed += measure_spans(program, folder)
    tell_end(passed)


if __name__ == "__main__":
    main()
