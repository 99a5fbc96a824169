#!/usr/bin/env python3
"""What it costs to remove a volume, over a real file.

For each number of blocks it makes an aggregate of 262,144 blocks, and in it a volume of that size and some more, with one file of so many blocks.
Then a script of `vol destroy` and the `cp` behind it runs on a copy, and beside it one of a `cp` alone. It prints the blocks that the first writes,
its barriers and the blocks that it reads, less those of an empty script, which opens the aggregate and makes a point; and the difference of the
processor times of the first and the second, the least of five. docs/FORMAT.md asks for the blocks of one map area, a root and the gates, whatever
the volume held.
"""
import os
import resource
import shutil
import subprocess
import tempfile

from points import PROGRAM, calls, fresh, run

BLOCKS = 262144
EACH = 200  # puts for each `cp` while the volume is filled
TIMES = 5


def make(path, count):
    """An aggregate with a volume that has a file of so many blocks."""
    fresh(path, BLOCKS)
    lines = [f"vol create a {count + count // 64 + 100} none", "new a f"]
    for index in range(count):
        lines.append(f"put a f {index} {index + 1:08x}")
        if index % EACH == EACH - 1:
            lines.append("cp")
    run(path, "".join(line + "\n" for line in lines).encode())


def processor(path, script, folder):
    """The least seconds of the processor that a script takes on a copy of the aggregate."""
    least = None
    for _ in range(TIMES):
        copy = os.path.join(folder, "copy")
        shutil.copyfile(path, copy)
        before = resource.getrusage(resource.RUSAGE_CHILDREN)
        subprocess.run([PROGRAM, copy, "run"], input=script, stdout=subprocess.DEVNULL, check=True)
        after = resource.getrusage(resource.RUSAGE_CHILDREN)
        seconds = after.ru_utime + after.ru_stime - before.ru_utime - before.ru_stime
        least = seconds if least is None else min(least, seconds)
    return least


def tell(count):
    with tempfile.TemporaryDirectory() as folder:
        path = os.path.join(folder, "aggregate")
        make(path, count)
        copy = os.path.join(folder, "copy")
        shutil.copyfile(path, copy)
        opening = calls(copy, b"", folder)
        shutil.copyfile(path, copy)
        removal = calls(copy, b"vol destroy a\ncp\n", folder)
        seconds = processor(path, b"vol destroy a\ncp\n", folder) - processor(path, b"cp\n", folder)
        print(
            f"{count} blocks: {removal['write'] - opening['write']} blocks written, {removal['sync'] - opening['sync']} barriers and "
            f"{removal['read'] - opening['read']} blocks read for the removal and its point; {1000 * seconds:.1f} ms of the processor, "
            f"load {os.getloadavg()[0]:.0f}"
        )


def main():
    for count in (1000, 10000, 100000):
        tell(count)


if __name__ == "__main__":
    main()
