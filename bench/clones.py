#!/usr/bin/env python3
"""What a clone costs: to make one, its point, a read through the chain of its bases, and opening.

Scripts through the program make aggregates of 65,536 blocks, over a file in memory. Four things are measured:

- the time of the processor for a `clone create`, where the parent has one file of 10,000 blocks and where it has 10,000 files of one block: the
  clone gets the snapshot's root and the numbers of the snapshot's map, so the files don't matter;
- the blocks that the point behind a `clone create` writes, beside those of a point without a change: the clone's overhead and no more;
- the blocks that a `get` reads in the parent, and in a clone of a clone of a clone, each in a run of its own: both follow known places, so
  both read the same blocks, and no node of a container;
- the blocks that opening reads over a volume with clones, beside those of as many volumes of their own with the same span.

Blocks are counted by strace. The time is the least of nine differences between 41 clones and 1 of the same script. Where a bar is passed a line
says so, and the status is 1.

The program is the one that ./prove or `rt ci` built here, no older than its sources; `--program` names another one, and `--quick` takes 100 files
in place of 10,000.
"""
import os
import subprocess
import tempfile

from check import program_of, read_words, tell_end
from names import CONTENT, processor, replies
from names import count as cost_of
from opening import RUNS, calls_beyond, reads

BLOCKS = 65536
SIZE = 40000  # of the parent: a span of 81,920
FILES, CLONES = 10000, 41
SAME = 1.25  # a clone may cost so many times as much over many files as over one
OVERHEAD = 328  # of a span of 81,920: a label, 3 blocks of the active map, 321 leaves for 81,995 numbers, and 3 nodes above them


def make(program, path, lines):
    """Makes an aggregate with these volumes and files."""
    if os.path.exists(path):
        os.remove(path)
    subprocess.run([program, path, "create", str(BLOCKS)], check=True, stdout=subprocess.DEVNULL)
    assert set(replies(program, path, lines)) <= {"ok"}


def parent_lines(files, blocks):
    """A volume with so many files of so many blocks, and a snapshot of it."""
    lines = [f"vol create a {SIZE} none"]
    for name in range(files):
        lines.append(f"new a f{name}")
        lines += [f"put a f{name} {index} {CONTENT}" for index in range(blocks)]
    return lines + ["snap create a s"]


def clone_lines(count):
    """So many clones of the snapshot, each of the least size."""
    return [f"clone create c{number} a s 1 none" for number in range(count)]


def create_cost(program, folder, files, blocks):
    """Microseconds of the processor for one `clone create`, its share of the last point among them."""
    path = os.path.join(folder, "aggregate")
    make(program, path, parent_lines(files, blocks))

    def once():
        few, many = (cost_of(processor, program, path, clone_lines(count), folder) for count in (1, CLONES))
        return (many - few) / (CLONES - 1)

    return min(once() for _ in range(RUNS))


def measure_create(program, folder, files):
    """Prints the rows of making clones, and answers whether the bar is passed."""
    costs = []
    for count, blocks in ((1, files), (files, 1)):
        costs.append(create_cost(program, folder, count, blocks))
        print(f"| {count:,} | {blocks:,} | {costs[-1]:.1f} |", flush=True)
    over = costs[1] > SAME * costs[0]
    return [f"a clone of {files:,} files costs {costs[1]:.1f}, over {SAME * costs[0]:.1f}"] if over else []


def measure_point(program, folder):
    """Prints what the point of a clone writes beside one without a change, and answers whether the bar is passed."""
    path = os.path.join(folder, "aggregate")
    make(program, path, parent_lines(1, 100))
    idle = calls_beyond(program, path, ["cp"], 0, folder)["write"]
    cloned = calls_beyond(program, path, [*clone_lines(1), "cp"], 0, folder)["write"]
    more = cloned - idle
    print(f"| {idle:,} | {cloned:,} | {more:,} | {OVERHEAD:,} |", flush=True)
    return [f"the point of a clone writes {more:,} blocks more, over {OVERHEAD:,}"] if more > OVERHEAD else []


def measure_get(program, folder):
    """Prints what a `get` reads in the parent and at the end of a chain, and answers whether the bar is passed."""
    path = os.path.join(folder, "aggregate")
    chain = [f"clone create {name} {parent} s 100 none" for parent, name in zip("abc", "bcd")]
    lines = parent_lines(1, 100)
    for line, name in zip(chain, "bcd"):
        lines += [line, f"snap create {name} s"]
    make(program, path, lines)
    opened = calls_beyond(program, path, [], 0, folder)
    counts = [calls_beyond(program, path, [f"get {name} f0 50"], 0, folder) - opened for name in "ad"]
    print(f"| {counts[0]['read']:,} | {counts[1]['read']:,} | {counts[1]['node']:,} |", flush=True)
    return ["a read through the chain costs more than one in the parent"] if counts[1] - counts[0] or counts[1]["node"] else []


def measure_opening(program, folder):
    """Prints what opening reads over clones and over volumes of their own, and answers whether the bar is passed."""
    path = os.path.join(folder, "aggregate")
    found = []
    others = [f"vol create c{number} {SIZE} none" for number in range(20)]
    for lines in (others, clone_lines(20)):
        make(program, path, parent_lines(1, 100) + lines)
        found.append(sum(reads(program, path, folder)[0].values()))
    print(f"| {found[1]:,} | {found[0]:,} |", flush=True)
    return [f"opening reads {found[1]:,} blocks over clones, over {found[0]:,}"] if found[1] > found[0] else []


def main():
    words = read_words(__doc__, "the many files")
    program = program_of(words, "clones")
    files = 100 if words.quick else FILES
    passed = []
    with tempfile.TemporaryDirectory(dir="/dev/shm") as folder:
        print("| files | blocks each | microseconds a clone |\n|---|---|---|")
        passed += measure_create(program, folder, files)
        print("\n| writes of a point without a change | behind a clone | more | bar |\n|---|---|---|---|")
        passed += measure_point(program, folder)
        print("\n| reads of a get in the parent | in a clone of a clone of a clone | of nodes of containers |\n|---|---|---|")
        passed += measure_get(program, folder)
        print("\n| reads of opening with 20 clones | with 20 volumes of their own |\n|---|---|")
        passed += measure_opening(program, folder)
    tell_end(passed)


if __name__ == "__main__":
    main()
