# shellcheck shell=bash disable=SC2034,SC2154
# Sourced by ./flexvol, ./reference, ./prove and ./install, which set `top` and `name`, their own name. Who runs a program sets
# `takes_script`, to 1 where it reads standard input.
#
# A program that is built, and no older than what it is made of, is run as it stands: ./prove and `rt ci` leave it so.
# Otherwise `rt try` compiles it and runs it with no proof, anew for each command, and one line on standard error says so.
# The programs print no text about a status; here standard error says in a few words what one other than 0 means.
# Standard input and output are the program's own.

# The launcher's own statuses; no program ends with one of them.
launch_failed=70
file_in_use=75

# An unproved run ends after so many seconds, and takes so many bytes of a script.
most_seconds=3600
most_script=67108864

complain() { # WORDS: says them on standard error under the program's name
    echo "$name: $*" >&2
}

# What statuses mean that both programs have.
meaning_of() { # STATUS
    case $1 in
        3) echo "standard input failed" ;;
        4) echo "standard output failed" ;;
        6) echo "memory ran out" ;;
        12) echo "the command line can't be read: a word of it is no UTF-8" ;;
        *) echo "ended with status $1" ;;
    esac
}

# Whether all words are UTF-8. Without iconv the program itself finds out.
are_text() { # WORDS
    command -v iconv >/dev/null || return 0
    printf '%s\0' "$@" | iconv -f UTF-8 -t UTF-8 >/dev/null 2>&1
}

# Whether a word names the blocks of an aggregate: 1 to 20 decimal digits, from 512 to 1048576.
is_blocks() { # WORD
    local LC_ALL=C digits
    [[ $1 =~ ^[0-9]{1,20}$ ]] || return 1
    digits=${1#"${1%%[!0]*}"}
    [ ${#digits} -ge 3 ] && [ ${#digits} -le 7 ] && [ "$digits" -ge 512 ] && [ "$digits" -le 1048576 ]
}

# A seed is below 2^64, and at most 1000000 commands are drawn; both are 1 to 20 digits.
is_seed() { # WORD
    local LC_ALL=C digits
    [[ $1 =~ ^[0-9]{1,20}$ ]] || return 1
    digits=${1#"${1%%[!0]*}"}
    [ ${#digits} -lt 20 ] || [[ ! $digits > 18446744073709551615 ]]
}

is_draws() { # WORD
    local LC_ALL=C digits
    [[ $1 =~ ^[0-9]{1,20}$ ]] || return 1
    digits=${1#"${1%%[!0]*}"}
    [ ${#digits} -lt 8 ] && [ "${digits:-0}" -le 1000000 ]
}

program_of() { # NAME
    echo "$top/crates/$1/out/$1"
}

# The crates of the repository that a program is made of, its own among them, one a line.
crates_below() { # NAME
    awk -F: -v start="$1" '
        /^[a-z]/ { split($1, head, " "); below[head[1]] = $2 }
        function visit(crate,   names, count, i) {
            if ((crate in seen) || !(crate in below)) return
            seen[crate] = 1
            print crate
            count = split(below[crate], names, " ")
            for (i = 1; i <= count; i++) visit(names[i])
        }
        END { visit(start) }' "$top/crates.txt"
}

# Whether a program stands that is no older than its sources. A folder is newer once a file in it came or went.
is_built() { # NAME
    local program crate part places=("$top/crates.txt")
    program=$(program_of "$1")
    [ -x "$program" ] || return 1
    while read -r crate; do
        for part in src specs proofs; do
            [ -d "$top/crates/$crate/$part" ] && places+=("$top/crates/$crate/$part")
        done
    done < <(crates_below "$1")
    [ -z "$(find "${places[@]}" -newer "$program" -print -quit)" ]
}

need_rt() {
    if ! command -v rt >/dev/null; then
        complain "the kit's command rt isn't on the path, and no proved program stands here; README.md says where the kit comes from"
        return 1
    fi
}

# How ./prove is called from the folder that the user is in.
prove_command() {
    if [ "$PWD" -ef "$top" ]; then echo ./prove; else echo "$top/prove"; fi
}

say_unproved() { # NAME
    local why="this machine hasn't proved it"
    [ -x "$(program_of "$1")" ] && why="its sources have changed since it was proved"
    complain "$why, so it is compiled and run unproved, in about a minute; $(prove_command) proves and builds it"
}

# Why an unproved run gave no answer: a limit of it, or else the last lines of its log.
say_unanswered() { # NAME LOG
    local proved
    proved="; a proved program has no such limit: $(prove_command)"
    if grep -q '^checked: no-answer: the program wrote more than 1048576 bytes' "$2"; then
        complain "an unproved run gives at most 1 MiB of replies, and this one had more: none is shown, and it was stopped$proved"
    elif grep -q '^checked: no-answer: the program did not end within the time limit' "$2"; then
        complain "an unproved run has $most_seconds seconds, and this one was stopped then; its replies would have come at its end$proved"
    else
        tail -n 10 "$2" | cut -c 1-200 >&2
        complain "the unproved run gave no answer; these were the last lines of rt try in crates/$1"
    fi
}

# Takes the script whole, before anything is run: `rt try` itself would end it at a pause of two seconds, and past 64 MiB.
take_script() { # FILE
    if [ "$takes_script" = 0 ]; then
        : >"$1"
    elif ! head -c $((most_script + 1)) >"$1"; then
        return 3
    elif [ "$(stat -c %s "$1")" -gt $most_script ]; then
        complain "an unproved run takes at most 64 MiB of a script, and this one has more, so nothing was run;" \
            "a proved program takes 4 GiB: $(prove_command)"
        return $launch_failed
    fi
}

# `rt try` ends with the program's status where the program ended, and says so in its last line.
run_unproved() { # NAME WORDS
    local own=$1 work status
    shift
    need_rt || return $launch_failed
    work=$(mktemp -d) || return $launch_failed
    # shellcheck disable=SC2064
    trap "rm -rf '$work'" EXIT
    say_unproved "$own"
    take_script "$work/script" || return $?
    (cd "$top/crates/$own" && exec rt try --seconds "$most_seconds" -- "$@" <"$work/script" 2>"$work/log")
    status=$?
    if ! grep -q "^run=ended status=$status " "$work/log"; then
        say_unanswered "$own" "$work/log"
        status=$launch_failed
    fi
    return "$status"
}

# Runs a program, proved where it stands so, and answers its status.
run_program() { # NAME WORDS
    if is_built "$1"; then
        "$(program_of "$1")" "${@:2}"
    else
        run_unproved "$@"
    fi
}
