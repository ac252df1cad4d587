# shellcheck shell=bash
# What the tests of the command share. A test is a script that begins with
#
#   . "$(dirname "$0")/programs.sh" [VERB] || exit 2
#
# then lists cases, and ends with `counted`. It stands in a room of its own, and a case is two files there: `out` is what the
# command should write to standard output, `err` what it should say on standard error. A file that is missing stands for
# nothing. Both are taken away with the case, so that none is held to what another left.
set -u
root=$(cd "$(dirname "${BASH_SOURCE[0]}")/.." && pwd -P)
command=$root/target/native/erythmoda
[ -x "$command" ] || { echo "there is no $command: tools/command target/native" >&2; exit 2; }
room=$(mktemp -d) || exit 2
trap 'rm -rf "$room"' EXIT
cd "$room" || exit 2
export LC_ALL=C   # a byte is a byte, to awk and its kin
exec </dev/null   # a case that is given no input has none, and waits for no one
shopt -s lastpipe # a case at the end of a pipe is counted as well
# A case may say `to=FILE` before its first word: standard output goes there, and `to=-` closes it. It may say `broken=FILE`:
# then standard input gives the file's bytes and fails, as a disk may.
to=wrote broken=''
passed=0 failed=0
# A line of the script that fails by itself counts too: where an input is missing, the case was never tried.
trap 'failed=$((failed + 1)); echo "FAILED: $name, line $LINENO: $BASH_COMMAND" >&2' ERR

# verb [VERB]: the cases from here on are of this verb. `run` is what they run, and `name` how it calls itself where it says
# something. The stack is 256 KiB: a table, a file and a picture of any size have their places elsewhere.
verb() { run=("$command" "$@") name="erythmoda${1:+ $1}" stack=256 always=''; }

# program NAME: the cases from here on are of the Rattle program NAME, which can end with no status but 0.
program() { run=("$root/tests/on" "$1") name=$1 stack=8192 always=0; }

verb "$@"

# A standard input that fails after some bytes: a terminal whose other side has written them and is gone.
fails_after='
import os, pty, sys, tty
ours, theirs = pty.openpty()
tty.setraw(theirs)
with open(sys.argv[1], "rb") as file: os.write(theirs, file.read())
os.close(theirs)
os.dup2(ours, 0)
os.execv(sys.argv[2], sys.argv[2:])'

# try STATUS NAME ARGUMENT...: one case. On this standard input `out` must be written, `err` said, and this be the status
try() {
    local expected=${always:-$1} case=$2 status
    shift 2
    touch out err wrote
    (
        if [ "$to" = - ]; then exec >&-; else exec >"$to"; fi
        ulimit -S -s "$stack"
        if [ -n "$broken" ]; then exec python3 -c "$fails_after" "$broken" "${run[@]}" "$@" 2>said; fi
        exec "${run[@]}" "$@" 2>said
    )
    status=$?
    if [ "$status" = "$expected" ] && cmp -s out wrote && cmp -s err said; then
        passed=$((passed + 1))
        echo "ok: $name, $case"
    else
        failed=$((failed + 1))
        echo "FAILED: $name, $case"
        [ "$status" = "$expected" ] || echo "  status: expected $expected, and it is $status"
        differs output out wrote
        differs error err said
    fi
    rm -f out err wrote said
}

# says STATUS NAME TEXT ARGUMENT...: the same, where one line is said, which begins with the command's name
says() {
    local expected=$1 case=$2
    printf '%s: %s\n' "$name" "$3" >err
    shift 3
    try "$expected" "$case" "$@"
}

# helps NAME ARGUMENT...: someone asks for help, and the file `help` is written
helps() {
    cp help out
    try 0 "$@"
}

# misused NAME ARGUMENT...: a call that is not understood. The file `help` is said, and nothing is written
misused() {
    cp help err
    try 2 "$@"
}

# unwritten NAME ARGUMENT...: what cannot be written. Its input is the file `in`, where there is one
unwritten() {
    local case=$1
    shift
    touch in
    to=/dev/full says 2 "$case, on a full disk" 'cannot write standard output: No space left on device' "$@" <in
    to=- says 2 "$case, with standard output closed" 'cannot write standard output: Bad file descriptor' "$@" <in
}

# unread NAME ARGUMENT...: standard input that cannot be read
unread() {
    local case=$1
    shift
    says 2 "$case, a folder" 'cannot read standard input: Is a directory' "$@" <.
    says 2 "$case, closed" 'cannot read standard input: Bad file descriptor' "$@" <&-
    says 2 "$case, open for writing alone" 'cannot read standard input: Bad file descriptor' "$@" 0>unread
}

# differs STREAM EXPECTED WRITTEN: if the two files differ, tells where, and at most three lines of each
differs() {
    cmp -s "$2" "$3" && return
    echo "  standard $1, expected (<) and written (>): $(cmp "$2" "$3" 2>&1)"
    diff -a "$2" "$3" | awk '/^</ && ++expected <= 3 || /^>/ && ++written <= 3' | cut -b 1-160 | cat -v
}

# cube N: a table of N·N·N rows that changes nothing, its numbers in seven decimals
cube() {
    awk -v n="$1" 'BEGIN {
        print "LUT_3D_SIZE " n
        for (b = 0; b < n; b++) for (g = 0; g < n; g++) for (r = 0; r < n; r++)
            printf "%.7f %.7f %.7f\n", r / (n - 1), g / (n - 1), b / (n - 1)
    }'
}

# counted: tells the counts and ends the script, which fails if a case failed or none passed
counted() {
    echo "${0##*/}: $passed passed, $failed failed"
    [ "$failed" = 0 ] && [ "$passed" -gt 0 ]
    exit
}
