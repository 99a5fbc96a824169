#!/usr/bin/env python3
"""What consistency points cost over a real file.

It builds the program on first use, makes an aggregate of 65,536 blocks, runs scripts of 10, 100 and 1,000 `cp` lines and one of 50
`vol create` lines, and prints for each the time, and the blocks written, barriers and blocks read for each consistency point, counted by
strace where that is there. Beside it stands the limit: a plain loop of as many writes of 4096 bytes and as many fsyncs.
"""
import os
import re
import shutil
import subprocess
import tempfile
import time

TOP = os.path.dirname(os.path.dirname(os.path.realpath(__file__)))
PROGRAM = os.path.join(TOP, "crates", "flexvol", "out", "flexvol")
BLOCKS = 65536
BLOCK = 4096


def need_program():
    """Proves and builds the program where none stands; the launcher would run it unproved."""
    if not os.path.exists(PROGRAM):
        subprocess.run([os.path.join(TOP, "prove")], check=True)


def fresh(path, blocks=BLOCKS):
    need_program()
    subprocess.run([PROGRAM, path, "create", str(blocks)], check=True, stdout=subprocess.DEVNULL)


def run(path, script, prefix=(), program=PROGRAM):
    """Runs a script and answers the seconds that it took."""
    before = time.perf_counter()
    done = subprocess.run([*prefix, program, path, "run"], input=script, stdout=subprocess.PIPE, check=True)
    seconds = time.perf_counter() - before
    last = done.stdout.splitlines()[-1]
    assert last == b"done %d" % script.count(b"\n"), last
    return seconds


def calls(path, script, folder, program=PROGRAM):
    """Blocks written, barriers and blocks read while a script runs."""
    log = os.path.join(folder, "calls")
    run(path, script, ("strace", "-f", "-qq", "-o", log, "-e", "trace=read,write,pread64,pwrite64,fsync,fdatasync"), program)
    counts = {"write": 0, "sync": 0, "read": 0}
    for line in open(log):
        if re.search(r"\b(fsync|fdatasync)\(", line):
            counts["sync"] += 1
        elif found := re.search(r"\bp?(read|write)(?:64)?\((\d+), .* = 4096$", line):
            if int(found.group(2)) > 2:
                counts[found.group(1)] += 1
    return counts


def limit(folder, writes, syncs):
    """The seconds of a plain loop of so many writes and fsyncs."""
    path = os.path.join(folder, "limit")
    shutil.copyfile("/dev/null", path)
    block = bytes(BLOCK)
    each = max(1, writes // max(1, syncs))
    with open(path, "r+b", buffering=0) as file:
        before = time.perf_counter()
        for number in range(writes):
            file.seek(BLOCK * (number % BLOCKS))
            file.write(block)
            if number % each == each - 1:
                os.fsync(file.fileno())
        return time.perf_counter() - before


def tell(name, script, points):
    """Runs a script over a fresh aggregate, and over another one under strace; opening is counted apart."""
    with tempfile.TemporaryDirectory() as folder:
        path = os.path.join(folder, "aggregate")
        fresh(path)
        seconds = run(path, script)
        line = f"{name}: {1000 * seconds:.0f} ms"
        if not shutil.which("strace"):
            print(line + "; strace isn't there, so no calls are counted")
            return
        counted = os.path.join(folder, "counted")
        fresh(counted)
        opening = calls(counted, b"", folder)
        fresh(counted)
        all_calls = calls(counted, script, folder)
        plain = limit(folder, all_calls["write"], all_calls["sync"])
        writes, syncs, reads = (all_calls[kind] - opening[kind] for kind in ("write", "sync", "read"))
        print(
            f"{line}, {writes / points:.1f} blocks written, {syncs / points:.1f} barriers and {reads / points:.1f} blocks read for each of "
            f"{points} points beside the last one; the plain loop of all {all_calls['write']} writes and {all_calls['sync']} fsyncs: "
            f"{1000 * plain:.0f} ms"
        )


def main():
    for lines in (10, 100, 1000):
        tell(f"{lines} cp lines", b"cp\n" * lines, lines)
    makes = b"".join(b"vol create v%02d 100 none\n" % number for number in range(50))
    tell("50 vol create lines", makes + b"cp\n", 5)


if __name__ == "__main__":
    main()
