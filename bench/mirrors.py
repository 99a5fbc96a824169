#!/usr/bin/env python3
"""What a mirror costs: to make one of 1,000, of 10,000 and of 100,000 blocks, and a first read in it.

Scripts through the program make an aggregate of 262,144 blocks, over a file in memory, with one file of so many blocks and a snapshot of it.
Behind a point, in a run of its own, a `mirror` is made. Three things are measured:

- the blocks that this run reads and writes beside a run without a line: each block of the snapshot is read once and written once, and then the point
  writes what a new volume wants, its overhead;
- its processor time by block, and its most memory, which hold the entries of the new container and none of the blocks;
- what a `get` reads in the mirror, in a run of its own, beside one in its source: a leaf of the container for each pointer without a place, at most.

Blocks are counted by strace. The time is the least of three, and the memory the greatest. Where a bar is passed a line says so, and the status is 1.

The program is the one that ./prove or `rt ci` built here, no older than its sources; `--program` names another one, and `--quick` leaves 100,000 blocks
out.
"""
import os
import subprocess
import tempfile
import time

from check import program_of, read_words, tell_end
from names import CONTENT, replies
from opening import calls_beyond, make

BLOCKS = 262144
COUNTS = (1000, 10000, 100000)
RUNS = 3
SAME = 1.25  # a block of a large mirror may cost so many times as much as one of a small one
MORE_MEMORY = 6000  # KiB, of the largest mirror beside the least: entries of its container, and bits of its maps
FEW = 40  # blocks: what a run reads and writes beside copies, overhead and leaves of containers


def source_lines(count):
    """A volume with a file of so many blocks, and a snapshot of it."""
    return [f"vol create a {count + 2000} none", "new a f", *(f"put a f {index} {CONTENT}" for index in range(count)), "snap create a s"]


def mirror_line(count):
    return f"mirror a s w {count + 2000} none"


def overhead(size):
    """The overhead of a volume of this size, by the table of docs/SPACE.md."""
    span = -(-(2 * size + 256) // 4096) * 4096
    maps = -(-span // 32768)
    leaves = -(-(span + 25 * maps) // 256)
    nodes, level = 0, leaves
    while level > 1:
        level = -(-level // 256)
        nodes += level
    return 1 + maps + leaves + nodes


def start(program, path, lines, folder):
    """Starts a run with these lines, over a copy, whose input stays open."""
    copy = os.path.join(folder, "copy")
    subprocess.run(["cp", path, copy], check=True)
    child = subprocess.Popen([program, copy, "run"], stdin=subprocess.PIPE, stdout=subprocess.DEVNULL)
    child.stdin.write("".join(f"{it}\n" for it in lines).encode())
    child.stdin.flush()
    return child


def run_seconds(program, path, line, folder):
    """Seconds of the processor of a run with one line."""
    child = start(program, path, [line], folder)
    child.stdin.close()
    _, status, used = os.wait4(child.pid, 0)
    assert status == 0, status
    return used.ru_utime + used.ru_stime


def is_waiting(child, ticks):
    """Whether a process sleeps and has used no more of the processor than these ticks, and how many it has used."""
    with open(f"/proc/{child.pid}/stat", encoding="ascii") as told:
        words = told.read().rpartition(")")[2].split()
    used = int(words[11]) + int(words[12])
    return words[0] == "S" and used == ticks, used


def run_memory(program, path, line, folder):
    """KiB of memory that a run with one line and a point takes at most, once it waits for more lines. What is told of a child that ended counts
    the memory of the script that started it, too."""
    child, waits, ticks = start(program, path, [line, "cp"], folder), 0, -1
    while waits < 5:
        time.sleep(0.05)
        waiting, ticks = is_waiting(child, ticks)
        waits = waits + 1 if waiting else 0
    with open(f"/proc/{child.pid}/status", encoding="ascii") as told:
        most = next(int(it.split()[1]) for it in told if it.startswith("VmHWM"))
    child.stdin.close()
    assert child.wait() == 0, child.returncode
    return most


def measure_making(program, folder, counts):
    """Prints what making a mirror costs, and answers which bars are passed."""
    passed, each, memory = [], [], []
    for count in counts:
        path = os.path.join(folder, "aggregate")
        make(program, path, source_lines(count), BLOCKS)
        seconds = min(run_seconds(program, path, mirror_line(count), folder) for _ in range(RUNS))
        memory.append(max(run_memory(program, path, mirror_line(count), folder) for _ in range(RUNS)))
        idle = calls_beyond(program, path, [], 0, folder)
        made = calls_beyond(program, path, [mirror_line(count)], 0, folder)
        copies = int(replies(program, path, ["vol stat w"])[0].split()[3])
        read, node, written = (made[kind] - idle[kind] for kind in ("read", "node", "write"))
        each.append(1000000 * seconds / copies)
        print(f"| {count:,} | {copies:,} | {read:,} | {node:,} | {written:,} | {each[-1]:.1f} | {memory[-1]:,} |", flush=True)
        if read > copies + FEW:
            passed.append(f"a mirror of {copies:,} blocks reads {read:,}")
        if written > copies + overhead(count + 2000) + FEW:
            passed.append(f"a mirror of {copies:,} blocks writes {written:,}")
    if each[-1] > SAME * each[0]:
        passed.append(f"a block costs {each[-1]:.1f} microseconds, over {SAME * each[0]:.1f}")
    if memory[-1] > memory[0] + MORE_MEMORY:
        passed.append(f"a mirror takes {memory[-1]:,} KiB, over {memory[0] + MORE_MEMORY:,}")
    return passed


def measure_get(program, folder):
    """Prints what a `get` reads in a mirror and in its source, and answers whether the bar is passed."""
    path = os.path.join(folder, "aggregate")
    opened = calls_beyond(program, path, [], 0, folder)
    unknown = int(replies(program, path, ["probe w f 500"])[0])
    source, mirror = (calls_beyond(program, path, [f"get {name} f 500"], 0, folder) - opened for name in "aw")
    print(f"| {source['read']:,} | {mirror['read']:,} | {unknown} | {mirror['node']:,} |", flush=True)
    return ["a read in a mirror costs more than a leaf for each pointer without a place"] if mirror["node"] > unknown or mirror["read"] > source["read"] else []


def main():
    words = read_words(__doc__, "100,000 blocks")
    program = program_of(words, "mirrors")
    passed = []
    with tempfile.TemporaryDirectory(dir="/dev/shm") as folder:
        print("| blocks of the file | copies | blocks read | leaves and nodes | written | microseconds each | KiB |\n|---|---|---|---|---|---|---|")
        passed += measure_making(program, folder, COUNTS[:-1] if words.quick else COUNTS)
        print("\n| reads of a get in the source | in the mirror | pointers without a place | leaves read |\n|---|---|---|---|")
        passed += measure_get(program, folder)
    tell_end(passed)


if __name__ == "__main__":
    main()
