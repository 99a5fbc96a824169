#!/usr/bin/env bash
# The test of the launcher: ./flexvol, ./reference, ./prove and ./install, over a copy of them with small crates and with
# stand-ins for `rt`, for the programs and for `df`, so that it proves and compiles nothing. A row each; the last line counts
# them.
set -u
umask 022
top=$(cd "$(dirname "$(readlink -f "$0")")/.." && pwd)
scratch=$(mktemp -d)
trap 'jobs -p | xargs -r kill 2>/dev/null; rm -rf "$scratch"' EXIT
chmod 755 "$scratch"
tree=$scratch/tree
calls=$scratch/calls
passed=0
failed=0

# A crate has one source; flexvol stands on two others.
lay_tree() {
    rm -rf "$tree"
    mkdir -p "$tree"
    cp -r "$top/launch.sh" "$top/flexvol" "$top/reference" "$top/prove" "$top/install" "$top/docs" "$top/man" "$top/examples" "$tree"
    printf '%s\n' 'flexvol: low lower' 'low: lower' 'lower:' 'reference: lower' 'dump: low lower' 'beside:' >"$tree/crates.txt"
    for crate in flexvol low lower reference dump beside; do
        mkdir -p "$tree/crates/$crate/src" "$tree/crates/$crate/proofs"
        touch "$tree/crates/$crate/src/main.rt" "$tree/crates/$crate/proofs/Lib.antt" "$tree/crates/$crate/proofs/Old.antt"
    done
    : >"$calls"
}

# The stand-in of the programs ends with PROGRAM_STATUS, and before that it waits until the file PROGRAM_WAITS is gone. The one
# of `rt` builds it, or runs it as `rt try` does; RT_EDITS is a command that is carried out while it builds, RT_SAYS what its
# log has in place of an end.
lay_stand_ins() {
    mkdir -p "$scratch/bin"
    cat >"$scratch/program" <<'END'
#!/usr/bin/env bash
[ $# = 0 ] && exit 7
if [ "${0##*/}" = dump ] || [ "${PWD##*/}" = dump ]; then
    echo "a look at $*"
elif [ "${2:-}" = create ]; then
    [ "${PROGRAM_STATUS:-0}" = 0 ] && echo bytes >"$1"
    echo "created ${3} capacity 761"
elif [ "${2:-}" = check ]; then
    echo "valid volumes 0 charged 0"
elif [ "${2:-}" = gen ]; then
    echo "generated $4 of $3"
elif [ "$1" = gen ]; then
    echo "lines of $2, $3 drawn"
else
    cat
fi
[ -n "${PROGRAM_WAITS:-}" ] && touch "$PROGRAM_WAITS.begun"
while [ -n "${PROGRAM_WAITS:-}" ] && [ -e "$PROGRAM_WAITS" ]; do sleep 0.05; done
exit "${PROGRAM_STATUS:-0}"
END
    cat >"$scratch/bin/rt" <<END
#!/usr/bin/env bash
echo "\$PWD \$*" >>"$calls"
crate=\${PWD##*/}
if [ "\$1" = run ]; then
    sleep 0.05
    eval "\${RT_EDITS:-}"
    sleep 0.05
    [ "\${RT_SAYS:-}" ] && { printf '%b' "\$RT_SAYS"; exit 1; }
    mkdir -p out && cp "$scratch/program" "out/\$crate" && chmod +x "out/\$crate"
    exit 7
fi
[ "\${RT_SAYS:-}" ] && { printf '%b' "\$RT_SAYS" >&2; exit 6; }
[ -f /dev/stdin ] && echo "a script of \$(stat -Lc %s /dev/stdin) bytes" >>"$calls"
while [ "\$1" != -- ]; do shift; done
"$scratch/program" "\${@:2}"
status=\$?
echo "run=ended status=\$status runners=1 proved=no" >&2
exit \$status
END
    cat >"$scratch/bin/df" <<END
#!/usr/bin/env bash
[ -z "\${DISK_KIB:-}" ] && exec $(command -v df) "\$@"
printf 'Filesystem 1024-blocks Used Available Capacity Mounted\nx 9 9 %s 9%% /\n' "\$DISK_KIB"
END
    chmod 755 "$scratch/bin/rt" "$scratch/bin/df" "$scratch/program"
    PATH=$scratch/bin:$PATH
}

launch() { # WORDS: keeps the status, standard output and standard error of a launch
    : >"$calls"
    output=$("$@" 2>"$scratch/error")
    status=$?
    error=$(cat "$scratch/error")
}

row() { # TEXT COMMAND: a row passes where the command does
    if "${@:2}"; then
        passed=$((passed + 1))
    else
        failed=$((failed + 1))
        echo "launcher: $1: FAILED: status $status, output '${output:0:200}', error '${error:0:400}'," \
            "rt was called: $(tr '\n' ';' <"$calls")"
    fi
}

ends() { # STATUS ERROR: the last launch ended so, and standard error is one line with this in it, or nothing where it is empty
    [ "$status" = "$1" ] || return 1
    [ -z "$2" ] && { [ -z "$error" ]; return; }
    [[ $error == *"$2"* ]] && [ "$(grep -c '' "$scratch/error")" = 1 ]
}

ends_at_once() { # STATUS ERROR: the same, with no output and without `rt` and the program
    ends "$@" && [ -z "$output" ] && [ ! -s "$calls" ]
}

gives() { # STATUS OUTPUT ERROR
    ends "$1" "$3" && [ "$output" = "$2" ]
}

tells() { # STATUS COUNT PATTERN: the last launch ended so, and so many lines of standard error have the pattern
    [ "$status" = "$1" ] && [ "$(grep -c -e "$3" "$scratch/error")" = "$2" ]
}

waits_for() { # COMMAND: at most twenty seconds, until it passes
    local n
    for ((n = 0; n < 400; n++)); do
        "$@" && return 0
        sleep 0.05
    done
    return 1
}

is_older() { # whether the launcher takes the program for one that isn't of its sources
    launch "$tree/flexvol" "$file" run </dev/null
    gives 0 "" "sources have changed"
}

test_words() {
    local words
    launch "$tree/flexvol"
    row "no words" ends_at_once 7 usage
    for words in x "x creat 1024" "x create" "x create 511" "x create 1048577" "x create 1e3" "x create +512" \
        "x create 000000000000000001024" "x create 1024 run" "x run run" "x check 1" "x help" "x gen" "x gen 7" "x gen 7 1000001" "x gen 7 1 1" \
        "x gen -7 1" "x gen 7 1.0" "x gen 18446744073709551616 0" "x gen 99999999999999999999 0" "x gen 000000000000000000007 0" \
        "x gen 7 000000000000000000000" "x dump block" "x dump entries" "x dump entries a b" "x dump blocks a"; do
        # shellcheck disable=SC2086
        launch "$tree/flexvol" $words
        row "flexvol $words" ends_at_once 7 usage
    done
    launch "$tree/flexvol" x create ""
    row "BLOCKS without a digit" ends_at_once 7 usage
    launch "$tree/flexvol" x create $'512\n'
    row "BLOCKS with a byte that is no digit" ends_at_once 7 usage
    launch "$tree/flexvol" $'\xff' run
    row "a word that isn't UTF-8" ends_at_once 12 UTF-8
    launch "$tree/flexvol" "" run
    row "a file without a name" ends_at_once 5 "no name"
    for words in "" 511 1048577 "1024 1024" x gen "gen 7" "gen 7 1000001" "gen 7 1 1" "gen -7 1" "gen 18446744073709551616 0" "Gen 7 1"; do
        # shellcheck disable=SC2086
        launch "$tree/reference" $words
        row "reference $words" ends_at_once 7 usage
    done
    launch "$tree/flexvol" "$scratch/zeros" create 00000000000000001024
    row "leading zeros" gives 0 "created 00000000000000001024 capacity 761" unproved
    rm -f "$scratch/zeros"
}

tells_commands() {
    local word
    [ "$status" = 0 ] && [ ! -s "$calls" ] || return 1
    for word in "create BLOCKS" "run " "vol create V SIZE KIND" "put V F I BLOCK" "snap restore V S" "  cp " "  8  " "  70 " "  75 "; do
        [[ $output == *"$word"* ]] || return 1
    done
}

test_help() {
    launch "$tree/flexvol" help
    row "help has the words, the commands and the statuses" tells_commands
    launch "$tree/flexvol" --help
    row "--help is help" tells_commands
    launch "$tree/reference" --help
    row "help of reference" gives 0 "$(sed -n 's/^usage="\(.*\)"$/\1/p' "$tree/reference")" ""
}

leaves_no() { # FILE
    [ ! -e "$1" ]
}

test_files() {
    launch "$tree/flexvol" "$scratch/missing" dump
    row "(f) a missing file to look at" ends_at_once 5 "missing isn't there"
    row "(f) a look makes no file" leaves_no "$scratch/missing"
    launch "$tree/flexvol" "$scratch/missing" run
    row "(f) a missing file" ends_at_once 5 "missing isn't there"
    row "(f) a run makes no file" leaves_no "$scratch/missing"
    launch "$tree/flexvol" "$scratch/no/file" create 1024
    row "(f) a missing folder" ends_at_once 5 "the folder $scratch/no isn't there"
    launch "$tree/flexvol" "$calls/file" create 1024
    row "(f) a file in place of a folder" ends_at_once 5 "$calls is no folder"
    launch "$tree/flexvol" "$scratch/bin" run
    row "(f) a folder" ends_at_once 5 "is a folder"
    mkfifo "$scratch/pipe"
    launch "$tree/flexvol" "$scratch/pipe" run
    row "(f) a pipe" ends_at_once 5 "no file of blocks"
}

# Root may do everything, so the launcher runs as nobody then.
test_rights() {
    local without=()
    [ "$(id -u)" = 0 ] && without=(setpriv --reuid=65534 --regid=65534 --clear-groups)
    mkdir -p "$scratch/closed"
    touch "$scratch/closed/file" "$scratch/unread" "$scratch/unwritten"
    chmod 555 "$scratch/closed"
    chmod 222 "$scratch/unread"
    chmod 444 "$scratch/unwritten"
    launch "${without[@]}" "$tree/flexvol" "$scratch/unread" run
    row "(f) a file without the right to read" ends_at_once 5 "right to read"
    launch "${without[@]}" "$tree/flexvol" "$scratch/unwritten" run
    row "(f) a file without the right to write" ends_at_once 5 "right to write"
    launch "$tree/flexvol" "$scratch/unwritten" dump
    row "(f) it can be looked at" gives 0 "a look at $scratch/unwritten" unproved
    launch "${without[@]}" "$tree/flexvol" "$scratch/closed/other" create 1024
    row "(f) a folder without the right to make a file" ends_at_once 5 "right to make a file"
}

test_full_disk() {
    export DISK_KIB=0
    launch "$tree/flexvol" "$scratch/new" create 1024
    row "(f) a new file on a full disk" ends_at_once 5 "is full"
    row "(f) none is made there" leaves_no "$scratch/new"
    DISK_KIB=27 launch "$tree/flexvol" "$scratch/new" create 1024
    row "(f) a disk with one block too few" ends_at_once 5 "28 KiB are wanted and 27 free"
    DISK_KIB=275 launch "$tree/flexvol" "$scratch/new" create 1048576
    row "(f) the greatest aggregate with one block too few" ends_at_once 5 "276 KiB are wanted"
    PROGRAM_STATUS=5 launch "$tree/flexvol" "$file" run </dev/null
    row "(f) a run on a full disk is told at once and at its end, which is the program's" tells 5 2 "is full"
    unset DISK_KIB
    PROGRAM_STATUS=5 launch "$tree/flexvol" "$file" run </dev/null
    row "(f) a disk that isn't full isn't told to be" tells 5 0 full
}

test_unproved() {
    launch "$tree/flexvol" "$file" create 1024
    row "what isn't built is run at once, with one line" gives 0 "created 1024 capacity 761" "hasn't proved it"
    row "that line names ./prove" ends 0 "$tree/prove"
    row "(c) it has an hour" grep -q "^$tree/crates/flexvol try --seconds 3600 -- $file create 1024$" "$calls"
    launch "$tree/flexvol" "$file" run < <(printf 'ok\nok\n')
    row "its script comes in" gives 0 $'ok\nok' unproved
    row "as a file, since rt try ends a pipe at a pause" grep -qx "a script of 6 bytes" "$calls"
    launch "$tree/flexvol" "$file" run <"$scratch/bin"
    row "where standard input can't be read it ends with 3" tells 3 1 "standard input failed"
    row "with nothing run" [ ! -s "$calls" ]
    launch "$tree/flexvol" "$file" create 1024 < <(sleep 60)
    row "create reads none" gives 0 "created 1024 capacity 761" unproved
    launch "$tree/flexvol" "$file" gen 18446744073709551615 01000000 < <(sleep 60)
    row "gen reads none, either" gives 0 "generated 01000000 of 18446744073709551615" unproved
    PROGRAM_STATUS=2 launch "$tree/flexvol" "$file" run </dev/null
    row "its status is the program's" tells 2 1 "is no aggregate"
    if ! PATH=/usr/bin:/bin command -v rt >/dev/null; then
        PATH=/usr/bin:/bin launch "$tree/flexvol" "$file" run </dev/null
        row "without rt it says so" ends 70 "rt isn't on the path"
    fi
    launch "$tree/reference" 1024 < <(echo ok)
    row "reference is run at once, too" gives 0 ok unproved
    launch "$tree/reference" gen 00000000000000000007 1000000 < <(echo no)
    row "its gen reads none" gives 0 "lines of 00000000000000000007, 1000000 drawn" unproved
}

test_limits() {
    local long unanswered='checked: no-answer: the program'
    launch "$tree/flexvol" "$file" run < <(head -c 67108865 /dev/zero)
    row "(c) more than 64 MiB of a script" tells 70 1 "at most 64 MiB"
    row "(c) of which nothing is run" [ ! -s "$calls" ]
    RT_SAYS="$unanswered wrote more than 1048576 bytes to standard output\\n" launch "$tree/flexvol" "$file" run </dev/null
    row "(c) more than 1 MiB of replies" tells 70 1 "at most 1 MiB"
    row "(c) is told in one line" tells 70 2 ""
    RT_SAYS="$unanswered did not end within the time limit\\n" launch "$tree/flexvol" "$file" run </dev/null
    row "(c) more than an hour" tells 70 1 "has 3600 seconds"
    row "(c) is told in one line, too" tells 70 2 ""
    long=$(printf 'a line %d\\n' {1..50})$(printf 'x%.0s' {1..5000})
    RT_SAYS="$long\\n" launch "$tree/flexvol" "$file" run </dev/null
    row "(c) of another log the last ten lines are shown" tells 70 9 "^a line"
    row "(c) the last one, too" tells 70 1 "^x*$"
    row "(c) each cut" [ "$(wc -c <"$scratch/error")" -lt 1000 ]
}

# Two launches at once, of which each says what its own log has.
test_two_logs() {
    RT_SAYS='one\n' "$tree/flexvol" "$file" run </dev/null 2>"$scratch/one" &
    RT_SAYS='two\n' "$tree/reference" 1024 </dev/null 2>"$scratch/two"
    wait $!
    row "(e) of two launches at once each has its own log" [ "$(grep -hx 'one\|two' "$scratch/one" "$scratch/two")" = $'one\ntwo' ]
    row "and leave none" [ -z "$(find "$TMPDIR" -mindepth 1)" ]
}

proves() {
    launch "$tree/prove"
    [ "$status" = 0 ]
}

test_build() {
    launch "$tree/install" "$scratch/prefix"
    row "install wants the built programs" ends 70 "prove does that"
    RT_SAYS="$(printf 'a line %d\\n' {1..50})" launch "$tree/prove"
    row "a build that fails says so, with ten lines" tells 70 10 "^a line"
    row "prove builds all" proves
    launch "$tree/flexvol" "$file" create 1024
    row "once built, the program is run as it stands" gives 0 "created 1024 capacity 761" ""
    row "without rt" [ ! -s "$calls" ]
    launch "$tree/reference" 1024 < <(echo ok)
    row "reference, too" gives 0 ok ""
    launch "$tree/flexvol" "$file" dump entries home < <(sleep 60)
    row "dump is a program of its own, which gets the words behind its own" gives 0 "a look at $file entries home" ""
    DISK_KIB=0 launch "$tree/flexvol" "$file" dump
    row "a full disk is no matter for a look" gives 0 "a look at $file" ""
    DISK_KIB=0 launch "$tree/flexvol" "$file" check < <(sleep 60)
    row "nor for a check, which reads nothing of standard input" gives 0 "valid volumes 0 charged 0" ""
    PROGRAM_STATUS=1 launch "$tree/flexvol" "$file" check </dev/null
    row "an aggregate with faults is told in words" gives 1 "valid volumes 0 charged 0" "isn't sound"
    PROGRAM_STATUS=8 launch "$tree/flexvol" "$file" run </dev/null
    row "a status is told in words" gives 8 "" "is damaged"
}

test_changes() {
    touch "$tree/crates/beside/src/main.rt"
    launch "$tree/flexvol" "$file" run </dev/null
    row "a crate that it isn't made of may change" ends 0 ""
    sleep 0.02
    touch "$tree/crates/lower/src/main.rt"
    row "(a) a source that was edited is noticed" is_older
    proves
    rm "$tree/crates/lower/proofs/Old.antt"
    row "(b) a source that was deleted is noticed" is_older
    RT_EDITS="touch $tree/crates/low/src/main.rt" launch "$tree/prove"
    row "(a) prove tells of a source that was edited while it built" tells 70 1 "changed while it was built"
    row "(a) and what it built isn't run as proved" is_older
    proves
    RT_EDITS="rm -f $tree/crates/low/proofs/Old.antt" launch "$tree/prove"
    row "(b) prove tells of a source that was deleted while it built" tells 70 1 "changed while it was built"
    row "(b) and what it built isn't run as proved" is_older
    proves
    launch "$tree/flexvol" "$file" run </dev/null
    row "built anew it is" ends 0 ""
}

test_two_builds() {
    RT_EDITS="while [ -e $scratch/building ]; do sleep 0.05; done"
    export RT_EDITS
    touch "$scratch/building"
    "$tree/prove" 2>/dev/null &
    waits_for grep -q "$tree/crates/flexvol run" "$calls"
    launch "$tree/prove"
    row "(e) a second build beside the first is told so" ends_at_once 70 "another run of it"
    rm "$scratch/building"
    wait $!
    row "and the first goes on to its end" [ $? = 0 ]
    RT_EDITS="echo \$\$ >$scratch/builder; exec sleep 60"
    "$tree/prove" 2>/dev/null &
    waits_for test -s "$scratch/builder"
    kill $!
    wait $! 2>/dev/null
    row "a build that is interrupted says so" [ $? = 70 ]
    row "and leaves nothing that goes on" waits_for is_gone "$(cat "$scratch/builder")"
    unset RT_EDITS
}

is_gone() { # PROCESS
    ! kill -0 "$1" 2>/dev/null
}

start_waiting() { # FILE WORDS: a launch that ends once the file `waits` is gone; its process is `waiting`
    touch "$scratch/waits"
    rm -f "$scratch/waits.begun"
    PROGRAM_WAITS=$scratch/waits "$tree/flexvol" "$@" </dev/null >/dev/null 2>&1 &
    waiting=$!
    waits_for test -e "$scratch/waits.begun"
}

test_lock() {
    ln -f "$file" "$scratch/link"
    start_waiting "$file" run
    launch "$tree/flexvol" "$file" run </dev/null
    row "(g) a second run on a file is told so" ends_at_once 75 "in use by another run"
    launch "$tree/flexvol" "$file" create 1024
    row "(g) so is a create" ends_at_once 75 "in use by another run"
    launch "$tree/flexvol" "$scratch/link" run </dev/null
    row "(g) also by another name of the file" ends_at_once 75 "in use by another run"
    launch "$tree/flexvol" "$file" dump
    row "(g) nor is it looked at meanwhile" ends_at_once 75 "in use by another run"
    launch "$tree/flexvol" "$scratch/other" create 1024
    row "(g) another file isn't locked" ends 0 ""
    kill -9 $waiting
    wait $waiting 2>/dev/null
    launch "$tree/flexvol" "$file" run </dev/null
    row "(g) the lock stays with the program where the launcher is killed" ends_at_once 75 "in use by another run"
    rm "$scratch/waits"
    row "(g) and goes with it" waits_for flock -n "$file" true
    launch "$tree/flexvol" "$file" run </dev/null
    row "(g) then a run goes on" ends 0 ""
    start_waiting "$file" dump
    launch "$tree/flexvol" "$file" dump blocks
    row "(g) two looks go on at once" gives 0 "a look at $file blocks" ""
    launch "$tree/flexvol" "$file" check </dev/null
    row "(g) and a check beside them" gives 0 "valid volumes 0 charged 0" ""
    launch "$tree/flexvol" "$file" run </dev/null
    row "(g) and no run beside them" ends_at_once 75 "in use by another run"
    rm "$scratch/waits"
    wait $waiting
    start_waiting "$scratch/made" create 1024
    launch "$tree/flexvol" "$scratch/made" create 1024
    row "(g) a file that is being made is locked, too" ends_at_once 75 "in use by another run"
    rm "$scratch/waits"
    wait $waiting
    PROGRAM_STATUS=5 launch "$tree/flexvol" "$scratch/failed" create 1024
    row "a create that wrote nothing leaves no file" leaves_no "$scratch/failed"
}

test_install() {
    launch "$tree/install"
    row "install wants a folder" ends 7 usage
    launch "$tree/install" "$scratch/prefix"
    row "install copies" ends 0 ""
    row "the programs" cmp -s "$scratch/program" "$scratch/prefix/bin/flexvol"
    row "reference" [ -x "$scratch/prefix/bin/reference" ]
    row "and dump, as flexvol-dump" [ -x "$scratch/prefix/bin/flexvol-dump" ]
    row "the manual" cmp -s "$top/man/flexvol.1" "$scratch/prefix/share/man/man1/flexvol.1"
    row "of the format, too" cmp -s "$top/man/flexvol.5" "$scratch/prefix/share/man/man5/flexvol.5"
    row "the examples" diff -r "$top/examples" "$scratch/prefix/share/flexvol/examples"
}

status_of() { # COMMAND
    "$@" </dev/null >/dev/null 2>&1
    echo $?
}

# What the launcher tells at once the program itself ends with, too. This is asked where the program is built, as it is behind `rt ci`.
test_program() {
    local program=$top/crates/flexvol/out/flexvol words
    if [ ! -x "$program" ]; then
        echo "launcher: flexvol isn't built here, so what it ends with by itself isn't compared"
        return
    fi
    for words in "" x "x creat 1024" "x create" "x create 511" "x create 1048577" "x create +512" \
        "x create 000000000000000001024" "x create 1024 run" "x run run" "$scratch/missing run" "$scratch/bin run" \
        "$scratch/pipe run" "$scratch/no/file create 512" $'\xff run'; do
        # shellcheck disable=SC2086
        status=$(status_of "$top/flexvol" $words)
        # shellcheck disable=SC2086
        row "the program ends as the launcher: flexvol $words" [ "$(status_of "$program" $words)" = "$status" ]
    done
}

mkdir "$scratch/temporary"
chmod 777 "$scratch/temporary"
export TMPDIR=$scratch/temporary
file=$scratch/file
lay_tree
lay_stand_ins
test_words
test_help
test_files
test_rights
test_unproved
test_limits
test_full_disk
test_two_logs
test_build
test_changes
test_two_builds
test_lock
test_install
test_program
launch python3 "$top/docs/manual.py" --check
row "the manual pages are those of docs/" ends 0 ""
echo "launcher: $passed passed, $failed failed"
[ $failed = 0 ]
