#!/usr/bin/env bash
# Times the plain machine on generated scripts, drawn from seed 7 as crates/fv_script/README.md says: 300
# lines, and 20,000 lines, which it is to answer within a minute. Bash counts in 64 bits and wraps, as the draws do.
set -eu
top=$(cd "$(dirname "$(readlink -f "$0")")/.." && pwd)
[ -x "$top/crates/reference/out/reference" ] || "$top/prove"

draw() { # BOUND: a number below it, in `drawn`
    state=$((state * 6364136223846793005 + 1442695040888963407))
    drawn=$((((state >> 32) & 0xffffffff) % $1))
}

place() { # a file and an index, in `at`
    draw 8
    at="f$drawn"
    draw 300
    at="$at $drawn"
}

command() {
    draw 8
    case $drawn in
        0 | 1 | 2 | 3) place; draw 4294967296; printf 'put g %s %08x\n' "$at" "$drawn" ;;
        4) place; echo "get g $at" ;;
        5) place; echo "cut g $at" ;;
        6) draw 2; made=$drawn; draw 4
           if [ "$made" = 0 ]; then echo "snap create g s$drawn"; else echo "snap delete g s$drawn"; fi ;;
        7) echo cp ;;
    esac
}

script() { # LINES
    state=7
    echo "vol create g 2000 none"
    for file in 0 1 2 3 4 5 6 7; do echo "new g f$file"; done
    for ((i = 9; i < $1; i++)); do command; done
}

for lines in 300 20000; do
    script "$lines" >"$top/crates/reference/out/generated.txt"
    before=$(date +%s%N)
    last=$("$top/reference" 1048576 <"$top/crates/reference/out/generated.txt" | tail -1)
    echo "$lines lines: $((($(date +%s%N) - before) / 1000000)) ms, $last"
done
