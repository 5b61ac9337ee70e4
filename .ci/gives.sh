# What the tests of commands share. Whoever sources this sets `tests`, the word before each message, and `room`, a folder of its own.
# shellcheck shell=bash
: "${tests:?}" "${room:?}"

differs() { # MESSAGE
    printf '%s: %s\n' "$tests" "$1"
    exit 1
}

count=0

# The command ends with this status and prints this line and nothing else. Without a line it says what failed, and begins with `name`.
gives() { # STATUS LINE COMMAND...
    local want=$1 line=$2 status=0
    shift 2
    ("$@") >"$room/out" 2>"$room/err" </dev/null || status=$?
    [ "$status" = "$want" ] || differs "status $status and not $want: $* ($(cat "$room/err"))"
    printf '%s' "${line:+$line$'\n'}" | cmp -s - "$room/out" || differs "printed '$(cat "$room/out")' and not '$line': $*"
    if [ -n "$line" ]; then
        [ ! -s "$room/err" ] || differs "'$(cat "$room/err")' on standard error: $*"
    else
        grep -q "^${name:?}: " "$room/err" || differs "no message on standard error: $*"
    fi
    count=$((count + 1))
}

# The command before this one said this on standard error.
said() { # PATTERN
    grep -q -- "$1" "$room/err" || differs "'$(cat "$room/err")' on standard error, and not '$1'"
    count=$((count + 1))
}

from() { cd "$1" && "${@:2}"; } # FOLDER COMMAND...
full() { "$@" >/dev/full; }
closed() { "$@" >&-; }
