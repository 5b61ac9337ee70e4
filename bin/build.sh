# The program that answers: whether it is the one that the sources and the toolchain give now, and building it where it is not, by one caller
# at a time. Works in the checkout's folder. A message is a sentence that says what to do.
# shellcheck shell=bash
: "${name:?}" "${root:?}"

folder=crates/$name
made=$folder/out/$name         # where rt leaves the program: `rt ci` puts another in its place
program=target/bin/$name       # the copy that is asked
record=target/built/$name      # what the program was built from, and its own hash
log=target/built/$name.log     # what rt printed
printed=target/built/$name.out # what the program printed when rt ran it
began=target/built/began       # as old as the build that is at work

say() { printf '%s: %s\n' "$name" "$1" >&2; }

have() { [[ -n $(type -P "$1") ]]; } # COMMAND

hash() { sha256sum | cut -c 1-64; }

# Finds among the sources and the list of crates. What rt makes, crates/NAME/out, is none.
find_sources() { # TESTS...
    find crates crates.txt -regex 'crates/[^/]*/out' -prune -o "$@"
}

# Prints one hash of every source and of the list of crates. A link is refused: rt follows none.
sources() {
    local links
    links=$(find_sources -type l -print) && [[ -z $links ]] || return 1
    find_sources -type f -exec sha256sum {} + | LC_ALL=C sort -k 2 | hash
}

# Prints the identity of the toolchain that is here or, without one, of the toolchain that built the program. `rt version` takes half a second, so the
# file that it prints is read, where there is one.
toolchain() {
    local rt
    if ! have rt; then
        sed -n 's/^toolchain //p' "$record" 2>/dev/null
    elif rt=$(readlink -f -- "$(type -P rt)") && [[ -s ${rt%/bin/rt}/KIT-ID ]]; then
        cat -- "${rt%/bin/rt}/KIT-ID"
    else
        rt version </dev/null
    fi
}

# Prints what a program that is built now is built from, in two lines.
origin() {
    local from with
    from=$(sources) && with=$(toolchain) && [[ -n $with ]] && printf 'sources %s\ntoolchain %s\n' "$from" "$with"
}

# Whether the program is the one that was recorded when it was built.
as_built() {
    local was now
    [[ -x $program && -f $record ]] && was=$(sed -n 3p "$record" 2>/dev/null) && now=$(hash <"$program") && [[ -n $now && $now == "$was" ]]
}

# Whether the program was built from what is here now.
current() {
    local was now
    as_built && was=$(head -n 2 "$record" 2>/dev/null) && now=$(origin) && [[ -n $now && $now == "$was" ]]
}

full() { fail "the disk of $root or of ${TMPDIR:-/tmp} is full: make room, of which a build takes up to 1 GB, and ask again"; }

# Waits until no other caller builds here. What is locked is the checkout's folder, and until this shell and all that it started have ended or
# let it go.
take_lock() {
    local ended=0
    have flock || fail 'flock, which keeps two builds apart, is not on the PATH: install util-linux'
    exec {held}<.
    flock -n -E 9 "$held" || ended=$?
    if [[ $ended == 9 ]]; then
        say 'another build is at work in this checkout: waiting for it'
        ended=0
        flock "$held" || ended=$?
    fi
    [[ $ended == 0 ]] || fail "$root cannot be locked for a build: clone the repository to a disk of this machine and ask there"
}

# Prints all that a crate stands on and the crate, in the order in which rt proves them.
crates_below() { # CRATE
    awk -v want="$1" '
        function visit(crate, list, k, n) {
            if (crate in seen || !(crate in below)) return
            seen[crate]
            n = split(below[crate], list, " ")
            for (k = 1; k <= n; k++) visit(list[k])
            print crate
        }
        { sub(/#.*/, ""); at = index($0, ":"); split(substr($0, 1, at - 1), words, " ") }
        at { below[words[1]] = substr($0, at + 1) }
        END { visit(want) }
    ' crates.txt
}

so_far() {
    ((SECONDS < 60)) || printf '%d min ' "$((SECONDS / 60))"
    printf '%d s' "$((SECONDS % 60))"
}

# Says why there is a build, which crate is being proved and what rt waits for, until it is ended: on one line of a terminal, elsewhere in a line for
# each. rt prints a line when it begins a crate, and none for a crate that has not changed.
progress() { # WHY CRATES
    local why=$1 crate line heard=0 now=
    local -A number=()
    shift
    for crate in "$@"; do number[$crate]=$((${#number[@]} + 1)); done
    while kill -0 "$$" 2>/dev/null; do
        while IFS= read -r line; do
            heard=$((heard + 1))
            crate=${line##* }
            [[ $line == *'waiting for '* || -n ${number[$crate]-} ]] || continue
            [[ -z $why ]] || say "$why"
            why=
            if [[ $line == *'waiting for '* ]]; then
                [[ ! -t 2 || -z $now ]] || printf '\r\033[K' >&2
                say "${line#rt: }"
            else
                now="${number[$crate]} of $#: $crate"
                [[ -t 2 ]] || say "proving $now ($(so_far))"
            fi
        done < <(sed -n -e '/^rt: chose --jobs [0-9]* for /p' -e '/^rt: .*waiting for /p' "$log" 2>/dev/null | tail -n "+$((heard + 1))")
        # before the first crate rt reads all sources
        [[ -z $why || $SECONDS -lt 3 ]] || { say "$why" && why=; }
        [[ ! -t 2 || -z $now ]] || printf '\r\033[K%s: proving %s (%s)' "$name" "$now" "$(so_far)" >&2
        sleep 0.2
    done
}

watcher=
end_progress() {
    [[ -n $watcher ]] || return 0
    # An interrupt ends the watcher too. For one that has ended bash may wait until rt ends.
    ! kill "$watcher" 2>/dev/null || wait "$watcher" 2>/dev/null || true
    watcher=
    [[ ! -t 2 ]] || printf '\r\033[K' >&2
}

# Prints the processes of a build that are left: those that were told to keep their temporary files in its folder.
left_of_build() { grep -lzxF -- "TMPDIR=$workshop" /proc/[0-9]*/environ 2>/dev/null | tr -dc '0-9\n' || true; }

# Waits until none is left, for a time.
wait_for_left() { # TIMES
    local times
    for ((times = 0; times < $1; times++)); do
        [[ -n $(left_of_build) ]] || return 0
        sleep 0.05
    done
}

# Ends what is left of a build, in an interrupted one all of it. rt has a process group of its own, so that an interrupt does not reach it, and is ended
# here; the prover, which ends with rt, may take a moment more. It leaves its temporary files behind then, and rt what it was copying.
builder=
workshop=
end_build() {
    [[ -z $builder ]] || kill -TERM -- "-$builder" 2>/dev/null || true
    end_progress
    if [[ -n $workshop ]]; then
        wait_for_left 100
        left_of_build | xargs -r kill -KILL 2>/dev/null || true
        wait_for_left 20
        rm -rf -- "$workshop" || true
    fi
    [[ -z $builder ]] || rm -rf -- crates/*/out/rt-work-"$builder"-* || true
    builder=
    workshop=
}

# Makes the folders of a build, or says what to do. What rt makes lies in each crate's folder, which is then as old as before the build.
make_room() { # CRATES
    local told crate
    told=$({
        mkdir -p target/bin target/built && : >"$log" && : >"$printed" || exit
        for crate in "$@"; do
            mkdir -p "crates/$crate/out" || exit
            [[ -w crates/$crate/out ]] || echo "crates/$crate/out: Permission denied"
        done
        touch "$began"
    } 2>&1) && [[ -z $told ]] || {
        [[ $told != *'No space left'* ]] || full
        told=${told%%$'\n'*}
        fail "nothing can be written in $root (${told##*: }): get leave to write there, or clone the repository to where you have it and ask there"
    }
    workshop=$(mktemp -d) || fail "no temporary folder can be made: set TMPDIR to a folder where you may write"
}

# What was built before is not kept then: it is not what the sources give now.
fail_build() { # WHAT
    local told
    end_build
    rm -f -- "$program"
    told=$({ cat "$log" && head -c 1000000 /dev/zero >"$log.room"; } 2>&1 | grep -a -m 1 'No space left on device') || true
    rm -f -- "$log.room"
    [[ -z $told ]] || full
    fail "$1, so there is no program to ask: $root/$log has what it printed"
}

# Builds the program and records what from. The caller has the lock.
prove() { # WHY
    local from told crates given=/dev/null why="$1: building it."
    from=$(origin) || fail "the sources in $root cannot all be read, or some are links, or rt does not tell its version"
    mapfile -t crates < <(crates_below "$name")
    compgen -G 'crates/*/out/rlib/stamp' >/dev/null ||
        why+=" The first build proves ${#crates[@]} crates, which took 8 min 38 s beside other work on four cores."
    rm -f -- "$record"
    make_room "${crates[@]}"
    [[ ! -f $folder/stdin ]] || given=$folder/stdin
    SECONDS=0
    progress "$why" "${crates[@]}" {held}<&- &
    watcher=$!
    set -m # so that rt has its own group
    (cd "$folder" && exec env -u RT_BACKEND -u RT_ALLOW_C TMPDIR="$workshop" rt run) <"$given" >"$printed" 2>"$log" &
    builder=$!
    set +m
    wait "$builder" || fail_build "rt run $name failed"
    end_build
    [[ -x $made && -s $made ]] || fail_build "rt run $name has not built $made"
    # What rt has read may be neither the old nor the new sources then, also where they have been put back, and its stamps may be wrong.
    if [[ -n $(find_sources -cnewer "$began" -print 2>&1) || $(origin) != "$from" ]]; then
        rm -f -- "$program" "$made" crates/*/out/rlib/stamp
        fail "the sources, the toolchain or target/ have changed while $program was built: ask again"
    fi
    [[ ! -f $folder/stdout || $(hash <"$folder/stdout") == "$(hash <"$printed")" ]] ||
        fail_build "the program that rt run $name has built does not print what $folder/stdout has"
    told=$({ cp -- "$made" "$program.new" && mv -f -- "$program.new" "$program"; } 2>&1) || {
        rm -f -- "$program.new"
        [[ $told != *'No space left'* ]] || full
        fail "cannot write $root/$program: ${told##*: }"
    }
    { printf '%s\n' "$from" && hash <"$program"; } >"$record" || fail "cannot write $root/$record"
    ((SECONDS < 3)) || say "built ($(so_far))"
}

need_rt() { # WHY
    have rt || fail "$1, and rt, which builds it, is not on the PATH: README.md says where rt comes from"
    [[ $(uname -m) == x86_64 ]] || fail "$1, and rt, which builds it, runs on x86-64 alone, and not on $(uname -m)"
}

# Builds the program, unless another caller has done so while this one waited.
build() {
    local why="$program is not built yet"
    [[ ! -e $program ]] || why="$program is not what the sources and the toolchain give now"
    need_rt "$why"
    take_lock
    current || prove "$why"
    exec {held}<&-
}
