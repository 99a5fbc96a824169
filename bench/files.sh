#!/usr/bin/env bash
# Counts what calls on files cost, in instructions for one call, which don't move with the load of the machine: the program
# `measure` runs under perf, or valgrind where there is no perf, with two numbers of calls, and the difference is divided by
# their difference. The gets read a file of 300 blocks in turn, a million times (ten thousand under valgrind): blocks that are in
# memory since they changed, and blocks that lie on the disk and are in the cache. Each get's block is compared whole with what was
# put, which `look` costs alone, and none may call the disk; valgrind counts what memory they take. `put` writes ten thousand new
# blocks of a file, each with other content. Last come the processor seconds of a million gets, by the clock, with the load of the
# machine. It builds the program on first use.
set -eu
top=$(cd "$(dirname "$(readlink -f "$0")")/.." && pwd)
program=${PROGRAM:-$top/crates/measure/out/measure}
[ -x "$program" ] || (cd "$top/crates/measure" && rt run >/dev/null)

counter=none
if perf stat -x , -e instructions:u true 2>&1 | grep -q '^[0-9]'; then
    counter=perf
elif command -v valgrind >/dev/null; then
    counter=valgrind
fi

# Valgrind counts each byte of the processor's string moves and fills as an instruction. So the C library is told to do without them: it
# then copies and fills by vectors, which are counted as they are.
counting() { # COMMAND WORDS
    GLIBC_TUNABLES=glibc.cpu.x86_rep_movsb_threshold=1000000000:glibc.cpu.x86_rep_stosb_threshold=1000000000 "$@"
}

instructions() { # WORK TIMES
    if [ "$counter" = perf ]; then
        perf stat -x , -e instructions:u "$program" "$1" "$2" 2>&1 >/dev/null | sed -n 's/^\([0-9]*\),.*/\1/p'
    else
        counting valgrind --tool=callgrind --callgrind-out-file=/dev/null "$program" "$1" "$2" 2>&1 >/dev/null \
            | sed -n 's/.*Collected : //p'
    fi
}

allocations() { # WORK TIMES
    valgrind --tool=memcheck --leak-check=no "$program" "$1" "$2" 2>&1 >/dev/null | sed -n 's/.*total heap usage: \([0-9,]*\) allocs.*/\1/p' | tr -d ,
}

cost() { # WORK FEW MANY
    echo $((($(instructions "$1" "$3") - $(instructions "$1" "$2")) / ($3 - $2)))
}

answers() { # WORK TIMES: each call is done, and answers what it should
    local answer
    answer=$("$program" "$1" "$2")
    [ "$answer" = "$2" ] || { echo "files: $1 $2 answers $answer" >&2; exit 1; }
}

case $counter in
    perf) gets=1000000 ;;
    valgrind) gets=10000 ;; # it takes some fifty times as long, and each call costs the same
    none) echo "files: neither perf nor valgrind counts here; skipped" >&2; exit 0 ;;
esac
look=$(cost look 100 10100)
for work in get cached; do
    answers $work 1000000
    one=$(cost $work 100 $((gets + 100)))
    echo "$work: $((one - look)) instructions, and $look to look at the block, by $counter"
    if command -v valgrind >/dev/null; then
        echo "$work: 5000 gets more take $(($(allocations $work 5100) - $(allocations $work 100))) pieces of memory"
    fi
done
echo "cold: 300 gets make $("$program" cold 300) calls of the disk"
answers put 11000
echo "put: $(cost put 1000 11000) instructions, by $counter"
for work in get cached; do
    seconds=$({ TIMEFORMAT=%U; time "$program" $work 1000000 >/dev/null; } 2>&1)
    echo "$work: $seconds seconds of the processor for a million, load $(cut -d ' ' -f 1 /proc/loadavg)"
done
