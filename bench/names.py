#!/usr/bin/env python3
"""What one line costs in a volume with few and with many files.

For each number of files it makes an aggregate of 65,536 blocks over a real file, with one volume of so many files of one block each. Then it runs
the program with some lines on the file in the middle, and with more of the same lines; the difference of the two counts is divided by that of the
lines. So what opening costs isn't counted, nor the first line on a file, which reads the names into memory: that one stands by itself, as the
difference of a script of one line and an empty one. The end of a script is a consistency point; as many blocks have changed in both scripts.

It prints a row for each number of files, in instructions by valgrind, which don't move with the load of the machine, or with `--by processor` in
microseconds of the processor. It builds the program on first use; `--program` names another one.
"""
import argparse
import os
import re
import resource
import shutil
import subprocess
import sys
import tempfile

from points import BLOCKS, PROGRAM, need_program

SIZE = 40000
LINES = {
    "put": ["put a {file} 0 {content}"],
    "get": ["get a {file} 0"],
    "len": ["len a {file}"],
    "new and rm": ["new a other", "rm a other"],
}
CONTENT = "48656c6c6f"

# The C library is told to copy and fill by vectors: valgrind counts each byte of the processor's string moves as an instruction.
COUNTED = {"GLIBC_TUNABLES": "glibc.cpu.x86_rep_movsb_threshold=1000000000:glibc.cpu.x86_rep_stosb_threshold=1000000000"}


def name(number):
    return f"f{number:05d}"


def replies(program, path, lines):
    """Runs a script, and answers its replies."""
    script = "".join(line + "\n" for line in lines).encode()
    done = subprocess.run([program, path, "run"], input=script, stdout=subprocess.PIPE, check=True)
    answers = done.stdout.decode().split("\n")[:-1]
    assert answers[-1] == f"done {len(lines)}", answers[-1]
    return answers[:-1]


def make(program, path, files):
    """Makes an aggregate with a volume of so many files of one block."""
    if os.path.exists(path):
        os.remove(path)
    subprocess.run([program, path, "create", str(BLOCKS)], check=True, stdout=subprocess.DEVNULL)
    lines = [f"vol create a {SIZE} none"]
    for number in range(files):
        lines += [f"new a {name(number)}", f"put a {name(number)} 0 {CONTENT}"]
    assert set(replies(program, path, lines)) == {"ok"}


def instructions(command, script):
    """How many instructions a run takes, by valgrind."""
    words = ["valgrind", "--tool=callgrind", "--callgrind-out-file=/dev/null", *command]
    done = subprocess.run(words, stdin=script, stdout=subprocess.DEVNULL, stderr=subprocess.PIPE, env=os.environ | COUNTED, check=True)
    return int(re.search(rb"Collected : (\d+)", done.stderr).group(1))


def processor(command, script):
    """How many microseconds of the processor a run takes, its own and those of the system for it."""
    before = resource.getrusage(resource.RUSAGE_CHILDREN)
    subprocess.run(command, stdin=script, stdout=subprocess.DEVNULL, check=True)
    after = resource.getrusage(resource.RUSAGE_CHILDREN)
    return 1000000 * (after.ru_utime + after.ru_stime - before.ru_utime - before.ru_stime)


def count(by, program, path, lines, folder):
    """What a script costs over a copy of an aggregate."""
    copy = os.path.join(folder, "copy")
    shutil.copyfile(path, copy)
    with tempfile.TemporaryFile() as script:
        script.write("".join(line + "\n" for line in lines).encode())
        script.seek(0)
        return by([program, copy, "run"], script)


def row(by, program, path, files, few, many, folder):
    """What the first line costs, and one line more of each kind."""
    middle = name(files // 2)
    first = count(by, program, path, [f"len a {middle}"], folder) - count(by, program, path, [], folder)
    costs = [first]
    for kind in LINES.values():
        kind = [line.format(file=middle, content=CONTENT) for line in kind]
        more = count(by, program, path, kind * many, folder) - count(by, program, path, kind * few, folder)
        costs.append(more / (many - few))
    return costs


def read_words():
    parser = argparse.ArgumentParser(description=__doc__.split("\n")[0])
    parser.add_argument("--files", type=int, nargs="+", default=[1, 1000, 5000, 10000], help="the numbers of files, up to 15000")
    parser.add_argument("--lines", type=int, nargs=2, default=[10, 210], metavar=("FEW", "MANY"), help="how many lines the two scripts have")
    parser.add_argument("--by", choices=["valgrind", "processor"], default="valgrind", help="what is counted")
    parser.add_argument("--program", default=PROGRAM, help="the program, where it isn't the one that is built here")
    return parser.parse_args()


def main():
    words = read_words()
    if words.by == "valgrind" and not shutil.which("valgrind"):
        sys.exit("names: valgrind isn't on the path; --by processor does without")
    by = instructions if words.by == "valgrind" else processor
    print("files, then the first line, then one more: " + ", ".join(LINES))
    with tempfile.TemporaryDirectory() as folder:
        path = os.path.join(folder, "aggregate")
        if not os.path.exists(words.program):
            need_program()
        for files in words.files:
            make(words.program, path, files)
            costs = row(by, words.program, path, files, *words.lines, folder)
            print(f"{files}: " + ", ".join(f"{cost:.0f}" for cost in costs), flush=True)


if __name__ == "__main__":
    main()
