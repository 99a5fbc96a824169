#!/usr/bin/env bash
# Times a command of `gen 11 20000` beside one of the same script by `run`, over aggregates of 65,536 blocks in files in memory (FOLDER, or /dev/shm), and
# holds the two beside each other: the line of `gen`, that of a second `gen`, and what both aggregates answer. The script is drawn here, as
# docs/MACHINE.md says. It wants the program built. Processor time moves with the machine, so the two are timed one after another, three times.
set -eu
top=$(cd "$(dirname "$(readlink -f "$0")")/.." && pwd)
program=${PROGRAM:-$top/crates/flexvol/out/flexvol}
[ -x "$program" ] || "$top/prove"
folder=$(mktemp -d "${FOLDER:-/dev/shm}/gen.XXXXXX")
trap 'rm -rf "$folder"' EXIT
count=${COUNT:-20000}

python3 - "$count" >"$folder/script" <<'SCRIPT'
import sys
x = 11

def draw(n):
    global x
    x = (6364136223846793005 * x + 1442695040888963407) % 2**64
    return x // 2**32 % n

def command():
    k = draw(8)
    if k < 4:
        return f"put g f{draw(8)} {draw(300)} {draw(2**32):08x}"
    if k < 6:
        return f"{'get' if k == 4 else 'cut'} g f{draw(8)} {draw(300)}"
    if k == 6:
        return f"snap {'delete' if draw(2) else 'create'} g s{draw(4)}"
    return "cp"

print("vol create g 2000 none")
for file in range(8):
    print(f"new g f{file}")
for _ in range(int(sys.argv[1])):
    print(command())
SCRIPT

asks() {
    echo "vol list"; echo "vol stat g"; echo "snap list g"; echo "ls g"
    for file in 0 1 2 3 4 5 6 7; do
        echo "len g f$file"
        for ((i = 0; i < 300; i++)); do echo "get g f$file $i"; done
    done
}

seconds() { # COMMAND WORDS: its processor time in milliseconds, in `spent`
    local TIMEFORMAT='%U %S'
    spent=$( { time "$@" >"$folder/given" <"$folder/script"; } 2>&1 | awk '{ print ($1 + $2) * 1000 }')
}

for turn in 1 2 3; do
    for word in gen run; do
        "$program" "$folder/$word" create 65536 >/dev/null
        if [ $word = gen ]; then seconds "$program" "$folder/gen" gen 11 "$count"; else seconds "$program" "$folder/run" run; fi
        tail -1 "$folder/given" >"$folder/$word.line"
        [ $word = gen ] || grep -c '^err ' "$folder/given" >"$folder/refused"
        echo "$word: $spent ms, $(awk -v ms="$spent" -v n=$((count + 9)) 'BEGIN { printf "%.1f", ms * 1000 / n }') us a line; $(cat "$folder/$word.line")"
    done
    [ $turn = 1 ] && cp "$folder/gen.line" "$folder/first"
    cmp "$folder/first" "$folder/gen.line"
done
for word in gen run; do asks | "$program" "$folder/$word" run >"$folder/$word.answers"; done
cmp "$folder/gen.answers" "$folder/run.answers"
used=$(sed -n 2p "$folder/run.answers" | cut -d' ' -f4)
refused=$(cat "$folder/refused")
wanted="generated $((count + 9)) ok $((count + 9 - refused)) refused $refused charged $used"
[ "$(cat "$folder/gen.line")" = "$wanted" ] && echo "both leave the same, and the line is what run counts"
