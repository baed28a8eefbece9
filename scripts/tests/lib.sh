# shellcheck shell=bash
# What the tests share; each reads it at its head. It counts what passed and failed, compares, finds the programs under test and a
# compiler, and says what isn't tried. The gate (GATE) tries all that the machine can. `room` is a folder for this test only, and `top` the repository. A test ends
# with `tell_counts`; if it ends before that, a line says where.
set -Eeuo pipefail
top=$(cd "$(dirname "${BASH_SOURCE[0]}")/../.." && pwd)
suite=${0##*/}
room=$(mktemp -d)
passed=0 failed=0 untried=0 is_counted='' broke_at=''

ends_run() {
    local status=$?
    [ -n "$is_counted" ] || echo "$suite: FAILED: ended early, at ${broke_at:-an unknown place}, with status $status"
    rm -rf "$room"
}
trap 'broke_at="line $LINENO of ${BASH_SOURCE[0]##*/}"' ERR
trap ends_run EXIT

passes() {
    passed=$((passed + 1))
}

fails() {
    echo "$suite: FAILED: $1"
    failed=$((failed + 1))
}

# Wants the second to be the third; the first says what it is.
is() {
    if [ "$2" = "$3" ]; then
        passes
    else
        fails "$1: $2, and not $3"
    fi
}

# Waits until a command succeeds, some minutes at most: a slow machine that has much to do fails no row for that.
waits_until() {
    local end=$((SECONDS + 300))
    until "$@"; do
        [ "$SECONDS" -lt "$end" ] || break
        sleep 0.02
    done
}

# Whether this machine has what rows need, by a command that tests for it; if not, says which rows aren't tried, and what it lacks.
#   can_try 'keys at a terminal' 'there is no script of util-linux' has_script
can_try() {
    ! "${@:3}" > /dev/null 2>&1 || return 0
    echo "$suite: not tried: $1: $2"
    untried=$((untried + 1))
    return 1
}
has_script() {
    script --version | grep -q util-linux
}
has_disks() {
    unshare -rm true
}
has_users() {
    [ "$(id -u)" -ne 0 ] || command -v setpriv
}

# Says what isn't tried for another reason. The gate has all that it needs, so there it fails.
not_tried() {
    if [ -n "${GATE:-}" ]; then
        fails "not tried: $1"
    else
        echo "$suite: not tried: $1"
        untried=$((untried + 1))
    fi
}

# Whether all is tried, as in the gate; if not, says which part is.
tries_all() {
    [ -n "${GATE:-}" ] || { echo "$suite: tries $1, and the gate tries all" && return 1; }
}

# Runs a command as a user without rights: root has all of them.
as_user() {
    if [ "$(id -u)" -eq 0 ]; then
        setpriv --reuid 65534 --regid 65534 --clear-groups "$@"
    else
        "$@"
    fi
}

# Prints a complaint without its second line, if that names a file of the command's words, the base of one, or a stream. Any other
# line stays, for the row to refuse; rows of their own compare second lines whole.
refusal_in() {
    local lines word
    mapfile -t lines < "$1"
    shift
    if [ "${#lines[@]}" -eq 2 ]; then
        for word in "$@" "${@/%/.base}" stdin stdout; do
            case ${lines[1]#zztool: } in
                "the last file read was $word" | "the last file written was $word" | "$word: no such file" \
                    | "$word can't be read: "* | "$word can't be written: "*)
                    unset 'lines[1]'
                    break
                    ;;
            esac
        done
    fi
    [ "${#lines[@]}" -eq 0 ] || printf '%s\n' "${lines[@]}"
}

# The last line. Nothing tried at all is well only where it was said why.
tell_counts() {
    is_counted=yes
    echo "$suite: $passed passed, $failed failed"
    [ "$failed" -eq 0 ] && [ "$((passed + untried))" -gt 0 ]
}

# Runs a test of this folder that is written in Python, with these words, and adds what it counted: its last line says that. What it says
# besides is told.
runs_python() {
    local said=$room/said.python
    PYTHONDONTWRITEBYTECODE=1 python3 "$top/scripts/tests/$1" "${@:2}" > "$said" 2>&1 || true
    untried=$((untried + $(grep -c "^$suite: not tried: " "$said" || true)))
    if [[ $(tail -n 1 "$said") =~ ^$suite:\ ([0-9]+)\ passed,\ ([0-9]+)\ failed$ ]]; then
        passed=$((passed + BASH_REMATCH[1])) failed=$((failed + BASH_REMATCH[2]))
        head -n -1 "$said"
    else
        tail -n 20 "$said"
        fails "$1 ended early"
    fi
}

# Prints where a program under test lies: the one that a variable names, as ZZTED for zzted, or the one that would run here.
program_of() {
    local named=${1^^}
    if [ -n "${!named:-}" ]; then
        realpath -- "${!named}"
    else
        "$top/scripts/program" --where "$1"
    fi
}

# Puts a copy of a program under test into the room, so that it stays the same while the test runs, and sets the variables of its name:
# zzted for the test, and ZZTED for the scripts that the test runs.
tests_program() {
    local at
    at=$(program_of "$1")
    mkdir -p "$room/program"
    cp "$at" "$room/program/$1"
    declare -g "$1=$room/program/$1"
    export "${1^^}=$room/program/$1"
}

# Finds a compiler of C, as `compiler`: the kit's, or another one.
finds_compiler() {
    local kit
    kit=$(command -v rt) && kit=$(dirname "$(dirname "$(readlink -f "$kit")")")/toolchain/bin
    for compiler in "$kit/clang" cc clang gcc; do
        ! command -v "$compiler" > /dev/null || break
    done
    # the kit's has a linker of its own
    linker=()
    [ "$compiler" != "$kit/clang" ] || linker=("-fuse-ld=$kit/ld.lld")
    command -v "$compiler" > /dev/null
}

# Compiles a file of this folder, which stands on no header, to a library that is loaded before a program.
compiles_library() {
    "$compiler" -shared -fPIC -O2 -ffreestanding -nostdlib "${linker[@]}" -o "$2" "$top/scripts/tests/$1"
}

# Finds test_desk, which makes the calls that no program shows.
finds_desk() {
    if TEST_DESK=$(program_of test_desk); then
        export TEST_DESK
    else
        unset TEST_DESK
        not_tried "what no program shows: there is no test_desk of these sources (scripts/dev/build test_desk proves and builds it)"
    fi
}
