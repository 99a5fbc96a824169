#!/usr/bin/env bash
# Counts what the lines of whole blocks cost, in instructions, which don't move with the load of the machine: `reference` runs under
# valgrind on two numbers of lines, and the difference is divided by their difference. The lines put a block of 4096 bytes, each with one
# word too many, so that it is read and then refused; or they get one. It builds the program on first use.
set -eu
top=$(cd "$(dirname "$(readlink -f "$0")")/.." && pwd)
program=${PROGRAM:-$top/crates/reference/out/reference}
command -v valgrind >/dev/null || { echo "lines: valgrind is not on the path; skipped" >&2; exit 0; }
[ -x "$program" ] || "$top/prove"

digits=$(printf '%08192d' 0 | tr 0 7)

line="put a f 0 $digits x"

# Valgrind counts each byte of the processor's string moves and fills as an instruction. So the C library is told to do without them: it
# then copies and fills by vectors, which are counted as they are.
counting() { # COMMAND WORDS
    GLIBC_TUNABLES=glibc.cpu.x86_rep_movsb_threshold=1000000000:glibc.cpu.x86_rep_stosb_threshold=1000000000 "$@"
}

instructions() { # LINES OF-WHAT: behind three lines that make a file
    { printf 'vol create a 100 none\nnew a f\nput a f 0 %s\n' "$digits"; for ((i = 0; i < $1; i++)); do echo "$2"; done; } \
        | counting valgrind --tool=callgrind --callgrind-out-file=/dev/null "$program" 512 2>&1 >/dev/null \
        | sed -n 's/.*Collected : //p'
}

cost() { # LINE
    echo $((($(instructions 110 "$1") - $(instructions 10 "$1")) / 100))
}

read=$(cost "$line")
echo "a line of ${#line} bytes that is refused: $read instructions, $((read / ${#line})) for each byte"
echo "a get of a whole block, with its reply of 8193 bytes: $(cost "get a f 0") instructions"
