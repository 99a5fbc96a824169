#!/usr/bin/env python3
"""What one line of a script costs: instructions, and bytes that are filled and copied.

It makes an aggregate of 65,536 blocks with one volume and one file of 300 blocks. Two in three of them are put, with five bytes each: so many that one
point writes them all, and no entry is delayed. For each kind of line it runs the program over copies of it, with some such lines and with more of
them; the difference of the two counts is divided by how many more. So what opening costs isn't counted, nor what only the first lines do: both
scripts pass each block that was put.

Instructions are counted by valgrind, with a C library that copies and fills by vectors. Bytes are counted by `count.c`, which is compiled here and
loaded before that library. None of it moves with the load of the machine. A table is printed as docs/LAYERS.md has it; a KB is 1,000 bytes.

    bench/lines.py --clock    microseconds of the processor, on a machine at rest, beside a plain loop of the same calls: as many blocks written,
                              barriers made and replies given, with nothing worked out. Each is the middle of five runs

The program is the one that ./prove or `rt ci` built here, no older than its sources; `--program` names another one.
"""
import argparse
import os
import re
import shutil
import statistics
import subprocess
import sys
import tempfile
import time

from delays import Image
from names import CONTENT, SIZE, count, instructions, processor, replies
from points import BLOCK, BLOCKS, PROGRAM, TOP, calls

LONG = 300  # blocks of the file, so that nodes of two levels stand over them
THERE = [number for number in range(LONG) if number % 3 != 1]  # those that are put: one point has room for them
EACH = 64  # puts for each `cp`
FEW, MANY = 320, 640  # lines of the two scripts: both pass all of these blocks, and both end with a `cp` where there are some
CLOCKED = {"written": 1024, "got": 20000}  # lines whose time is taken
RUNS = 5


def same(line):
    """Lines of which each is the same."""
    return lambda times: [line] * times


def over_blocks(line):
    """Lines that go over the blocks of the file in turn."""
    return lambda times: [line.format(THERE[number % len(THERE)]) for number in range(times)]


def with_points(lines):
    """These lines, and a `cp` behind each few of them."""
    return [line for first in range(0, len(lines), EACH) for line in [*lines[first : first + EACH], "cp"]]


GET = over_blocks("get a f {}")
PUT = over_blocks(f"put a f {{}} {CONTENT}")

# Each kind of line, and how its replies begin.
KINDS = {
    "a line that is no command": (same("walk a f"), "err 1 syntax"),
    "`vol stat`": (same("vol stat a"), f"size {SIZE} "),
    "`len`": (same("len a f"), f"{LONG}"),
    "`get`, refused for want of its file": (same("get a other 0"), "err 4 no such file"),
    "`get` of a short block, in the cache with its path": (GET, CONTENT),
    "`put` over a block": (PUT, "ok"),
    f"`put` over a block, with its share of a `cp` behind each {EACH}": (lambda times: with_points(PUT(times)), "ok"),
    "`cp` without a change": (same("cp"), "ok"),
}


def is_built():
    """Whether the launcher would run the program as it stands."""
    return subprocess.run(["bash", "-c", 'top=$1; . "$top/launch.sh"; is_built flexvol', "lines", TOP]).returncode == 0


def make(program, folder):
    """An aggregate with a file that one point has written."""
    path = os.path.join(folder, "aggregate")
    subprocess.run([program, path, "create", str(BLOCKS)], check=True, stdout=subprocess.DEVNULL)
    assert set(replies(program, path, [f"vol create a {SIZE} none", "cp", "new a f", *PUT(len(THERE))])) == {"ok"}
    assert not any(volume.delayed() for volume in Image(path).volumes.values())
    return path


# ---- instructions and bytes


def compiled(folder):
    """The library that counts bytes."""
    library = os.path.join(folder, "count.so")
    source = os.path.join(TOP, "bench", "count.c")
    words = ["gcc", "-O2", "-Wall", "-fno-builtin", "-fno-tree-loop-distribute-patterns", "-shared", "-fPIC", "-o", library, source]
    subprocess.run(words, check=True)
    return library


def bytes_by(library):
    """Counts the bytes that a run fills, and those that it copies."""

    def moved(command, script):
        environment = os.environ | {"LD_PRELOAD": library}
        done = subprocess.run(command, stdin=script, stdout=subprocess.DEVNULL, stderr=subprocess.PIPE, env=environment, check=True)
        return [int(sum) for sum in re.search(rb"^filled (\d+) copied (\d+)$", done.stderr, re.MULTILINE).groups()]

    return moved


def check_replies(program, path, lines, begins, folder):
    """Each line of a kind is answered as it should be."""
    copy = os.path.join(folder, "copy")
    shutil.copyfile(path, copy)
    for reply in replies(program, copy, lines):
        assert reply.startswith(begins), (lines[0], reply)


def tell_costs(program, path, folder):
    """Prints the row of each kind."""
    moved = bytes_by(compiled(folder))
    print("| Line | Instructions | Filled KB | Copied KB |\n|---|---|---|---|")
    for name, (kind, begins) in KINDS.items():
        check_replies(program, path, kind(MANY), begins, folder)
        few, many = (
            [count(instructions, program, path, lines, folder), *count(moved, program, path, lines, folder)] for lines in (kind(FEW), kind(MANY))
        )
        taken, filled, copied = ((more - less) / (MANY - FEW) for less, more in zip(few, many))
        print(f"| {name} | {taken:,.0f} | {filled / 1000:.1f} | {copied / 1000:.1f} |", flush=True)


# ---- times


def plain_loop(folder, writes, syncs, answers):
    """Microseconds of the processor for a loop of so many blocks written, syncs and replies given."""
    block = bytes(BLOCK)
    each = writes // max(1, syncs)
    with open(os.path.join(folder, "loop"), "wb", buffering=0) as file, open(os.devnull, "wb", buffering=0) as output:
        before = time.process_time()
        for number in range(writes):
            os.pwrite(file.fileno(), block, BLOCK * number)
            if number % each == each - 1:
                os.fsync(file.fileno())
        for _ in range(answers):
            output.write(b"ok\n")
        return 1000000 * (time.process_time() - before)


def middle(work):
    return statistics.median(work() for _ in range(RUNS))


def tell_time(name, program, path, before, lines, times, folder):
    """Prints a row: the time of lines, less that of the lines before them, for each of so many."""

    def of_program():
        return count(processor, program, path, before + lines, folder) - count(processor, program, path, before, folder)

    def called(lines):
        copy = os.path.join(folder, "copy")
        shutil.copyfile(path, copy)
        return calls(copy, "".join(line + "\n" for line in lines).encode(), folder, program)

    less, more = called(before), called(before + lines)
    writes, syncs = (more[kind] - less[kind] for kind in ("write", "sync"))
    spent = middle(of_program)
    plain = middle(lambda: plain_loop(folder, writes, syncs, len(lines)))
    print(f"| {name} | {spent / times:.2f} | {plain / times:.2f} | {writes / times:.3f} | {syncs / times:.3f} |", flush=True)


def tell_times(program, path, folder):
    """Prints the rows of the lines whose time is taken."""
    written = [f"put a new {number} {CONTENT}" for number in range(CLOCKED["written"])]
    print("| Line | Microseconds | The plain loop | Blocks written | Barriers |\n|---|---|---|---|---|")
    tell_time(f"a block written in order, a `cp` behind each {EACH}", program, path, ["new a new"], with_points(written), len(written), folder)
    tell_time("`get` of a block in the cache", program, path, GET(len(THERE)), GET(CLOCKED["got"]), CLOCKED["got"], folder)
    print(f"\nLoad {os.getloadavg()[0]:.1f} on {os.cpu_count()} processors.")


def read_words():
    parser = argparse.ArgumentParser(description=__doc__.split("\n")[0])
    parser.add_argument("--clock", action="store_true", help="take times, beside a plain loop")
    parser.add_argument("--program", help="the program, where it isn't the one that is built here")
    return parser.parse_args()


def main():
    words = read_words()
    if not (words.program or is_built()):
        sys.exit("lines: crates/flexvol/out/flexvol isn't built, or is older than its sources; ./prove builds it")
    missing = [tool for tool in (["strace"] if words.clock else ["valgrind", "gcc"]) if not shutil.which(tool)]
    if missing:
        sys.exit(f"lines: {missing[0]} isn't on the path")
    with tempfile.TemporaryDirectory() as folder:
        program = words.program or PROGRAM
        path = make(program, folder)
        (tell_times if words.clock else tell_costs)(program, path, folder)


if __name__ == "__main__":
    main()
