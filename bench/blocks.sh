#!/usr/bin/env bash
# Counts what bit maps and block codecs cost, in instructions for one call, which don't move with the
# load of the machine: the program `measure` runs under valgrind with two numbers of calls, and the
# difference is divided by their difference. It builds the program on first use.
set -eu
top=$(cd "$(dirname "$(readlink -f "$0")")/.." && pwd)
program=$top/crates/measure/out/measure
command -v valgrind >/dev/null || { echo "blocks: valgrind is not on the path; skipped" >&2; exit 0; }
[ -x "$program" ] || (cd "$top/crates/measure" && rt run >/dev/null)

# Valgrind counts each byte of the processor's string moves and fills as an instruction. So the C library is told to do without them: it
# then copies and fills by vectors, which are counted as they are.
counting() { # COMMAND WORDS
    GLIBC_TUNABLES=glibc.cpu.x86_rep_movsb_threshold=1000000000:glibc.cpu.x86_rep_stosb_threshold=1000000000 "$@"
}

instructions() { # WORK TIMES
    counting valgrind --tool=callgrind --callgrind-out-file=/dev/null "$program" "$1" "$2" 2>&1 >/dev/null \
        | sed -n 's/.*Collected : //p'
}

cost() { # WORK FEW MANY
    echo $((($(instructions "$1" "$3") - $(instructions "$1" "$2")) / ($3 - $2)))
}

words=$((1048576 / 64))
for work in count first_free; do
    one=$(cost $work 2 12)
    echo "$work over a full map of 1048576 numbers: $one instructions, $((one / words)) for each of its $words words"
done
copy=$(cost copy 100 1100)
echo "copy of a block: $copy instructions"
for work in encode decode; do
    one=$(cost $work 100 1100)
    echo "$work of a node: $one instructions"
done
