# What the parts of ./check that are scripts share, for `. tools/check/trying.sh` at the top of the repository: a folder, $room, which is
# gone at the end; what tries a command and counts; and the last line, 'N passed, M failed'.
passed=0
failed=0
room=$(mktemp -d)
trap 'rm -rf "$room"' EXIT

# try NAME WORD..: runs a command, and shows its output where it fails.
try() {
    name=$1
    shift
    if "$@" > "$room/said" 2>&1; then
        echo "$name: passed"
        passed=$((passed + 1))
    else
        echo "$name: FAILED"
        tail -n 60 "$room/said"
        failed=$((failed + 1))
    fi
}

# needs WHAT PROGRAM: whether a program is there. A missing one is reported, and fails under CI=true.
needs() {
    command -v "$2" > /dev/null && return 0
    echo "$1: passed over, there is no $2"
    [ "${CI:-}" != true ] || failed=$((failed + 1))
    return 1
}

finish() {
    echo "$passed passed, $failed failed"
    [ "$failed" = 0 ]
    exit
}
