# What bin/verdict and bin/compatible share. They set `self`, `name`, `second` and `question`, source this file, and call `ask` with their
# arguments.
# shellcheck shell=bash
: "${self:?}" "${name:?}" "${second:?}" "${question:?}"

root=${self%/bin/*}

# No text of more bytes is a description: whatever comes behind them, it is refused.
text_most=4096

# The status is 2 until a whole line has been read from the program and printed. Whatever else ends the shell on the way, a command that is
# missing, a full disk, a signal, must not look like a verdict.
status=2
trap 'trap "" HUP INT TERM; [[ -z ${workshop-} ]] || end_build; exit "$status"' EXIT

fail() { # MESSAGE
    printf '%s: %s\n' "$name" "$1" >&2
    exit 2
}

# shellcheck source=bin/build.sh
source "$root/bin/build.sh" || exit
# shellcheck source=bin/usage.sh
source "$root/bin/usage.sh" || exit

# Prints on standard output, or fails. A reader that has gone is a failed write and not a signal.
print() { # TEXT
    trap '' PIPE
    printf '%s\n' "$1" 2>/dev/null || fail 'cannot write to standard output'
}

# Prints the bytes of a file that count, in base64, and a full stop: a variable holds no byte 0, a temporary file could be left behind, and what has
# no full stop is not whole. The file is opened here and not by its name, which may begin with `-`.
taken() { # FILE
    local said out file=$1
    [[ $file != /dev/tcp/* && $file != /dev/udp/* ]] || file=/.$file # names that the shell would connect to
    { said=$({ head -c "$((text_most + 1))" <"$file" >&"$out"; } 2>&1) || fail "cannot read $1: ${said##*: }"; } {out}>&1 | base64 -w 0 && printf .
}

decoded() { printf '%s' "${1%.}" | base64 -d; } # TAKEN

# Sets `line` to what the program prints for the two texts, if it ends well, is still the same afterwards, and that is one whole line of one of the
# three forms and nothing besides.
ask_program() { # NEW OLD, taken
    local said number='(0|[1-9][[:digit:]]*)'
    local forms="^(yes $number|no( $number){5,}|refused( $number){3})$"
    said=$({ decoded "$1" && printf '\0' && decoded "$2"; } | "$program" | LC_ALL=C tr '\0' '?' && printf .) && as_built || return
    line=${said%$'\n.'}
    [[ $said == "$line"$'\n.' && $line =~ $forms ]]
}

# Asks a program again that did not answer: as another caller has built it meanwhile, or built again by this one.
ask_again() { # NEW OLD, taken
    local why="$program does not answer"
    need_rt "$why"
    take_lock
    if ! { current && ask_program "$1" "$2" 2>/dev/null; }; then
        rm -f -- "$program" "$made" "$record"
        prove "$why"
        ask_program "$1" "$2" || fail "$root/$program was built again and still does not print one line of a known form"
    fi
    exec {held}<&-
}

# Prints the commit and the toolchain's identity, as a certificate names them.
version() {
    local top commit changed with
    # shellcheck disable=SC2046
    unset $(git rev-parse --local-env-vars)
    top=$(git rev-parse --show-toplevel 2>&1) || fail "git cannot tell which commit $root is: ${top%%$'\n'*}"
    [[ $top == "$root" ]] || fail "$root is no git checkout of its own, so its commit is not known"
    commit=$(git rev-parse HEAD 2>/dev/null) &&
        changed=$(git --no-optional-locks status --porcelain --untracked-files=all --ignored -- bin crates crates.txt ':(exclude,glob)crates/*/out/**') ||
        fail "git cannot tell which commit $root is"
    if [[ -n $changed ]]; then
        changed=$(sources) || fail "the sources in $root cannot all be read, or some are links"
        changed=", with changes that are not committed: sources $changed"
    fi
    with=$(if have rt; then rt version </dev/null; else toolchain; fi) && [[ -n $with ]] || fail 'rt is not on the PATH and has built no program here, so the toolchain is not known'
    print "dzaghvori $commit$changed
$with"
}

ask() { # ARGUMENTS
    local new old there
    case $#${1-} in
    1--help)
        print "$(usage)"
        status=0
        exit
        ;;
    1--version)
        cd -- "$root"
        version
        status=0
        exit
        ;;
    esac
    there="there are $# arguments"
    [[ $# -ne 1 ]] || there='there is 1 argument'
    [[ $# -eq 2 ]] || fail "two files are asked for, and $there
$(usage)"

    # Without a standard input /dev/stdin would be whatever is opened next.
    [[ -e /dev/fd/0 ]] || exec </
    new=$(taken "$1") && [[ $new == *. ]] || exit
    # The program takes the first byte 0 for the end of the new text.
    [[ $(decoded "$new" | LC_ALL=C tr -dc '\0' | wc -c) == 0 ]] ||
        fail "$1 holds a byte 0, which would end the new text there (is it UTF-16? a description is plain ASCII)"
    old=$(taken "$2") && [[ $old == *. ]] || exit

    cd -- "$root"
    current || build
    ask_program "$new" "$old" 2>/dev/null || ask_again "$new" "$old"
    print "$line"
    case $line in
    yes*) status=0 ;;
    no*) status=1 ;;
    esac
}
