# The functions that the test programs in shell share. Each sets $top, the checkout, and then reads this by `.`; it is plain sh.
#
# A name in CDPATH leads no `cd` elsewhere, and words are ordered by their octets. The program and its helper scripts are in the path. $room is a folder that
# is removed at the end. One of the functions below counts a test, and prints a failure; `ended` prints the last line.
# shellcheck shell=sh disable=SC2154
unset CDPATH
LC_ALL=C
export LC_ALL
PATH="$top/companions:$top:$PATH"
export PATH
room=$(mktemp -d) || exit 2
trap 'rm -rf -- "$room"' EXIT
trap 'exit 1' HUP INT TERM
passed=0
failed=0

# Counts a test: its name, and a command that must succeed.
pass() {
    name=$1
    shift
    if "$@"; then
        passed=$((passed + 1))
    else
        failed=$((failed + 1))
        echo "failed: $name"
    fi
}

# Counts a test: two files are the same.
same() { pass "$1" cmp -s -- "$2" "$3"; }

# Counts a test: a text is the expected one.
text() {
    if [ "$2" = "$3" ]; then
        passed=$((passed + 1))
    else
        failed=$((failed + 1))
        printf 'failed: %s\n  expected: %s\n  got:      %s\n' "$1" "$3" "$2"
    fi
}

# Counts a test: the text of a file, $2, is that of a document, $3; prints how they differ.
as_written() {
    if cmp -s -- "$2" "$3"; then
        passed=$((passed + 1))
    else
        failed=$((failed + 1))
        echo "failed: $1: the document has '<', the call prints '>'"
        diff -- "$3" "$2"
    fi
}

skip() { echo "skipped: $1"; }

# Prints how many tests passed and failed, and succeeds if none failed.
ended() {
    echo "$passed passed, $failed failed"
    [ "$failed" -eq 0 ]
}

# Ends with a message on standard error if the program is not proved, because a trial build takes half a minute for each call.
want_program() {
    [ -z "$(p25 show </dev/null 2>&1)" ] && return
    echo "$1: the proved program is needed: ./prove makes it" >&2
    exit 1
}

# Prints as many digits 0 as the argument states.
zeros() { printf "%0$1d" 0; }

# Prints lines of all types of units, with none, one and several blocks.
kinds() {
    echo "hdu nac=293 mi=0123456789abcdef01 mfid=00 algid=84 kid=1234 tgid=0064"
    echo "ldu1 nac=293 lc=000000000064001001 lsd=1234 voice=$(zeros 324)"
    echo "ldu2 nac=293 mi=0123456789abcdef01 algid=84 kid=1234 lsd=abcd voice=$(zeros 324)"
    echo "tdu nac=f7e"
    echo "tdulc nac=293 lc=000000000064001001"
    echo "confirmed nac=293 head=56c000000001800c0800 blocks=-"
    echo "confirmed nac=293 head=56c000000001820c0800 blocks=00:$(zeros 32),01:0123456789abcdef0123456789abcdef"
    echo "plain nac=293 head=35c00000000180000000 octets=-"
    echo "plain nac=293 head=35c00000000183000000 octets=$(zeros 64)"
    echo "response nac=293 head=23080000000180000000 octets=-"
    echo "response nac=293 head=23800000000181000000 octets=f000000000000000"
}
