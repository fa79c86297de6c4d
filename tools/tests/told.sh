# Sourced by rust/test and tools/test, behind tools/common.sh: counts what passed and what failed. `told` is a test, `says` what most of them ask, and
# `summary` the last line and the exit status.
passed=0 failed=0
told_log=$(mktemp)
trap 'rm -f "$told_log"' EXIT

# told NAME WORDS..: a test that passes where the words are a command that does.
told() {
    local name=$1
    shift
    if "$@"; then
        passed=$((passed + 1))
        echo "test $name ... ok"
    else
        failed=$((failed + 1))
        echo "test $name ... FAILED"
    fi
}

# says STATUS LINES WORDS..: the command prints these lines to its output and ends with this status.
says() {
    local wanted="$2 ($1)" status=0 lines
    shift 2
    lines=$("$@" 2>"$told_log") || status=$?
    [ "$lines ($status)" = "$wanted" ] && return
    echo "wanted: $wanted"
    echo "found:  $lines ($status)"
    return 1
}

# complained LINE: the last `says` had this one line beside its output.
complained() {
    [ "$(cat "$told_log")" = "$1" ] && return
    echo "wanted: $1"
    echo "found:  $(cat "$told_log")"
    return 1
}

# complains STATUS LINE WORDS..: the command prints nothing to its output, this one line beside it, and ends with this status.
complains() {
    local status=$1 line=$2
    shift 2
    says "$status" '' "$@" && complained "$line"
}

# The command's line cannot be printed: the status is 2, and nothing breaks.
full() {
    ends 2 "$@" >/dev/full
}

closed() {
    ends 2 "$@" >&-
}

# The reader of the pipe is gone before a line is written.
unread() {
    local status
    { sleep 0.5 && ends 2 "$@"; } | true && status=0 || status=${PIPESTATUS[0]}
    [ "$status" -eq 0 ]
}

# ends STATUS WORDS..
ends() {
    local wanted=$1 status=0
    shift
    "$@" 2>"$told_log" || status=$?
    [ "$status" -eq "$wanted" ] && ! grep -q panicked "$told_log"
}

to_nobody() {
    "$@" >/dev/null
}

summary() {
    echo "$1: $passed tests passed, $failed failed"
    [ "$failed" -eq 0 ]
}
