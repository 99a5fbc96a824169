#!/usr/bin/env python3
"""What a step of the cleaner costs in mirrors of 1,000, of 10,000 and of 100,000 blocks, and a `work` with nothing to do.

Scripts through the program make an aggregate of 262,144 blocks, over a file in memory, with one file of so many blocks, a snapshot of it
and a mirror of that. Behind a point, in runs of their own, three things are measured:

- the blocks that a `clean` reads beside a run without a line, by step: a step reads the node that it cleans, and of what it passes only
  what has left the cache;
- the processor time of a step: that of a `clean` and its points, beside a run without a line, by the number of steps. A node leads to 128
  blocks, so the steps are known: one for each node, for the inode block and for the label;
- the processor time of a `work 1` with nothing to do, over 100,000 lines of it, beside a run without a line: in a mirror that has no step
  left, and in one that is clean.

Blocks are counted by strace. The time is the least of three. Where a bar is passed a line says so, and the status is 1.

The program is the one that ./prove or `rt ci` built here, no older than its sources; `--program` names another one, and `--quick` leaves
100,000 blocks out.
"""
import os
import subprocess
import tempfile

from check import program_of, read_words, tell_end
from mirrors import BLOCKS, COUNTS, RUNS, mirror_line, source_lines
from names import replies
from opening import calls_beyond, make

FAN = 128  # pointers of a node
IDLE = 100000  # lines `work 1` with nothing to do
# A step in a larger mirror may take so many times as long as one in a mirror of 1,000 blocks: a search begins at another node in each
# step, so it passes few that are clean, however many there are.
SAME = 1.5
# Blocks read by step, however large the mirror is. One is the node that is cleaned. A point comes after 249 steps, when less than the room
# of a step is left of 256 blocks, and what it writes leaves memory. Of the node over nodes that is under way then at most 127 children
# are clean, and each is read once more: 127 of 249 is 0.51. The rest are nodes above these, one for 128 of them at most.
MOST_READ = 1.6
MOST_IDLE = 5  # microseconds of a `work 1` with nothing to do


def steps(count):
    """How many steps a mirror of one file of so many blocks takes: its nodes, its inode block and its label."""
    nodes, level = 0, count
    while level > 1:
        level = -(-level // FAN)
        nodes += level
    return nodes + 2


def seconds(program, path, lines, folder):
    """The least processor time of some runs of these lines, each over a copy."""
    copy, script = os.path.join(folder, "copy"), os.path.join(folder, "script")
    with open(script, "w") as into:
        into.writelines(line + "\n" for line in lines)
    least = None
    for _ in range(RUNS):
        subprocess.run(["cp", path, copy], check=True)
        with open(script) as given:
            child = subprocess.Popen([program, copy, "run"], stdin=given, stdout=subprocess.DEVNULL)
        _, status, used = os.wait4(child.pid, 0)
        assert status == 0, status
        took = used.ru_utime + used.ru_stime
        least = took if least is None else min(least, took)
    return least


def measure_steps(program, folder, counts):
    """Prints what a step costs, and answers which bars are passed."""
    passed, each = [], []
    for count in counts:
        path = os.path.join(folder, "aggregate")
        make(program, path, [*source_lines(count), mirror_line(count)], BLOCKS)
        took = seconds(program, path, ["clean w"], folder) - seconds(program, path, [], folder)
        idle = calls_beyond(program, path, [], 0, folder)
        done = calls_beyond(program, path, ["clean w"], 0, folder)
        read, node, written = (done[kind] - idle[kind] for kind in ("read", "node", "write"))
        each.append(1000000 * took / steps(count))
        row = f"{steps(count):,} | {read / steps(count):.2f} | {node / steps(count):.2f} | {written / steps(count):.2f} | {each[-1]:.0f}"
        print(f"| {count:,} | {row} |", flush=True)
        for found, most, what in ((read / steps(count), MOST_READ, "blocks read"), (each[-1], SAME * each[0], "microseconds")):
            if found > most:
                passed.append(f"a step in a mirror of {count:,} blocks: {what} {found:.2f}, over {most:.2f}")
    return passed


def measure_idle(program, folder):
    """Prints what a `work 1` with nothing to do takes, and answers whether the bar is passed."""
    path = os.path.join(folder, "aggregate")
    make(program, path, [*source_lines(COUNTS[0]), mirror_line(COUNTS[0])], BLOCKS)
    passed = []
    for name, line in (("a mirror has no step left", "work 1000000"), ("all places are known", "clean w")):
        assert replies(program, path, [line]) == ["ok"]
        took = seconds(program, path, ["work 1"] * IDLE, folder) - seconds(program, path, [], folder)
        each = 1000000 * took / IDLE
        print(f"| {name} | {each:.2f} |", flush=True)
        if each > MOST_IDLE:
            passed.append(f"a `work 1` with nothing to do takes {each:.1f} microseconds, over {MOST_IDLE}")
    return passed


def main():
    words = read_words(__doc__, "100,000 blocks")
    program = program_of(words, "cleans")
    passed = []
    with tempfile.TemporaryDirectory(dir="/dev/shm") as folder:
        print("| blocks of the file | steps | blocks read by step | leaves and nodes | written | microseconds |\n" + "|---" * 6 + "|")
        passed += measure_steps(program, folder, COUNTS[:-1] if words.quick else COUNTS)
        print("\n| a `work 1` where | microseconds |\n|---|---|")
        passed += measure_idle(program, folder)
    tell_end(passed)


if __name__ == "__main__":
    main()
