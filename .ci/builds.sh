# Tests how bin/verdict and bin/compatible build, with programs and an rt that stand in for the real ones. .ci/bins sources this.
# shellcheck shell=bash
: "${root:?}" "${room:?}" "${files:?}" "${R:?}"
tree=$room/tree
stand=$room/stand
mkdir "$tree" "$stand"

scripted() { # FILE SCRIPT
    printf '#!/bin/sh\n%s\n' "$2" >"$1"
    chmod +x "$1"
}
cp -R bin "$tree/bin"
mkdir -p "$tree/crates/below/src" "$tree/crates/verdict/src" "$tree/crates/compatible/src"
printf '# crates\nverdict: below io\nbelow:\ncompatible: below\nbeside staticlib: below\n' >"$tree/crates.txt"
echo source >"$tree/crates/below/src/lib"
echo 'kit 1' >"$stand/identity"
# This rt does what the file `check` says, at the top, for the crate that it was begun in, and counts how often it is asked to.
scripted "$stand/rt" "case \$1 in
version) exec cat '$stand/identity' ;;
run) echo \"\$*\" >>'$stand/calls'; echo rt at work >&2; crate=\${PWD##*/}; cd ../..; . '$stand/check' ;;
*) exit 2 ;;
esac"
checks() { printf '%s\n' "$1" >"$stand/check"; }               # SCRIPT
programs() { scripted "$stand/program" "cat >/dev/null; $1"; } # SCRIPT: what the program does that is built
fresh() { rm -rf target crates/*/out && : >"$stand/calls"; }
built() { # TIMES WHEN: so often since `fresh`
    local times
    times=$(wc -l <"$stand/calls")
    [ "$times" = "$1" ] || differs "rt built $times times and not $1 times $2"
}
# As the real rt: where its stamp is that of the program, it builds nothing.
builds="made=crates/\$crate/out/\$crate; mkdir -p crates/\$crate/out crates/below/out/rlib; : >crates/below/out/rlib/stamp
[ -s \$made ] && sha256sum <\$made | cmp -s - \$made.stamp || { cp '$stand/program' \$made; chmod +x \$made; sha256sum <\$made >\$made.stamp; }"
export PATH=$stand:$PATH
cd "$tree" || exit

# Only one whole line of a known form is taken, and nothing after a failure; what does not answer is built again, once
checks "$builds"
for name in verdict compatible; do
    while IFS='|' read -r status line script; do
        fresh
        programs "$script"
        if [ -n "$line" ]; then
            bin/"$name" "$R" "$R" >"$room/out" 2>/dev/null || true # builds
            gives "$status" "$line" "bin/$name" "$R" "$R"
            built 1 "for a program that runs '$script'"
        else
            gives "$status" "$line" "bin/$name" "$R" "$R"
            built 2 "for a program that runs '$script'"
            said 'was built again and still does not print one line of a known form$'
        fi
    done <<'END'
0|yes 5|echo yes 5
1|no 20 0 0 0 0|echo no 20 0 0 0 0
1|no 23 1 2 2 0 0 4|echo no 23 1 2 2 0 0 4
2|refused 2 1 0|echo refused 2 1 0
2||:
2||echo
2||printf 'yes 5'
2||printf 'yes 5\nyes 5\n'
2||printf 'yes 5\nno'
2||printf 'yes 5\n\n'
2||printf '\nyes 5\n'
2||printf 'yes 5\r\n'
2||printf 'yes \0005\n'
2||echo yes
2||echo yes 5 5
2||echo yes 05
2||echo yes -5
2||echo 'yes  5'
2||echo 'yes 5 '
2||echo ' yes 5'
2||echo yesterday 5
2||echo YES 5
2||echo no 20 0 0 0
2||echo no 20 0 0 0 0 x
2||echo refused 2 1
2||echo refused 2 1 0 0
2||echo yes 5; exit 1
2||echo no 20 0 0 0 0; exit 1
2||echo yes 5; kill -9 $$
END
    # what the program is given, and a line longer than any
    fresh
    scripted "$stand/program" "cat >given; printf 'no 23 0 0 0 0 '; seq -s ' ' 16384"
    bin/"$name" "$R" "$R" >"$room/out" 2>/dev/null || true # builds
    gives 1 "no 23 0 0 0 0 $(seq -s ' ' 16384)" "bin/$name" "$files/round" "$files/zero"
    printf 'A = A .\0A = end .\0A = end .' | cmp -s - given || differs "bin/$name did not join its files by one byte 0"
    rm given
done

# The program is built where it is missing, broken, or not known to be what the sources and the toolchain give; what rt prints goes to a file
name=verdict
none_kept() { # WHEN
    local file
    for file in target/bin/verdict target/built/verdict; do
        [ ! -e "$file" ] || differs "$file was kept $1"
    done
}
answers() { # LINE TIMES WHEN: bin/verdict answers this, and rt has built so often since `fresh`
    local line
    line=$(from / "$tree/bin/verdict" "$R" "$R" 2>"$room/err") || differs "bin/verdict gave no yes $3: $(cat "$room/err")"
    [ "$line" = "$1" ] || differs "bin/verdict printed '$line' and not '$1' $3"
    built "$2" "$3"
    count=$((count + 1))
}
fresh
programs 'echo yes 7'
answers 'yes 7' 1 'where nothing is built'
grep -qx 'rt at work' target/built/verdict.log || differs 'what rt printed is not in target/built/verdict.log'
answers 'yes 7' 1 'where all is built'
rm target/bin/verdict
answers 'yes 7' 2 'where the program has gone'
: >target/bin/verdict
answers 'yes 7' 3 'where the program is empty'
chmod -x target/bin/verdict
answers 'yes 7' 4 'where the program may not be run'
scripted target/bin/verdict 'cat >/dev/null; echo yes 1'
answers 'yes 7' 5 'where the program is another one'
rm target/built/verdict
answers 'yes 7' 6 'where the program was built by hand'
rm target/built/verdict
scripted target/bin/verdict 'cat >/dev/null; echo yes 1'
answers 'yes 7' 7 'where a program that was built by hand is another one'
rm crates/verdict/out/verdict
answers 'yes 7' 7 "where rt's own has gone"
scripted crates/verdict/out/verdict 'cat >/dev/null; echo yes 1'
answers 'yes 7' 7 "where rt's own is another one"
scripted target/bin/verdict 'cat >/dev/null; echo yes 1'
echo more >>crates/below/src/lib
answers 'yes 7' 8 'where the program is another one and a source has changed that it does not need'
programs 'echo yes 8'
checks "rm -f crates/\$crate/out/\$crate.stamp; $builds" # as rt does where a source has changed
echo changed >crates/below/src/lib
touch -d '2001-01-01' crates/below/src/lib
answers 'yes 8' 9 'where a source has changed'
answers 'yes 8' 9 'where the changed source is built'
echo '# a comment' >>crates.txt
answers 'yes 8' 10 'where the list of crates has changed'
: >crates/below/src/more
answers 'yes 8' 11 'where a source has come'
rm crates/below/src/more
answers 'yes 8' 12 'where a source has gone'
echo 'kit 2' >"$stand/identity"
answers 'yes 8' 13 'where the toolchain is another one'
checks 'exit 1'
echo broken >crates/below/src/lib
for _ in 1 2; do
    gives 2 '' bin/verdict "$R" "$R"
    said '^verdict: rt run verdict failed, .*/target/built/verdict.log has what it printed$'
    none_kept 'for sources that are not proved'
done
checks "$builds"
answers 'yes 8' 16 'where the sources are proved again'

# What cannot be told is not taken for unchanged: an rt without a version beside an empty record, sources that are links
: >target/built/verdict
: >"$stand/identity"
gives 2 '' bin/verdict "$R" "$R"
echo 'kit 2' >"$stand/identity"
mv crates/below/src/lib elsewhere
ln -s ../../../elsewhere crates/below/src/lib
gives 2 '' bin/verdict "$R" "$R"
said 'some are links'
mv elsewhere crates/below/src/lib

# What changes while rt is at work: a source, also one that is put back, and the toolchain
while IFS= read -r change; do
    fresh
    checks "sleep 0.1; $change; $builds"
    gives 2 '' bin/verdict "$R" "$R"
    said '^verdict: the sources, the toolchain or target/ have changed while target/bin/verdict was built: ask again$'
    none_kept 'for what changed meanwhile'
    [ ! -e crates/verdict/out/verdict ] || differs "rt's own program was kept for what changed meanwhile"
    [ ! -e crates/below/out/rlib/stamp ] || differs "rt's stamp was kept for what changed meanwhile"
done <<END
echo meanwhile >>crates/below/src/lib
mv crates/below/src/lib kept; echo 1 >crates/below/src/lib; sleep 0.1; mv kept crates/below/src/lib
echo kit 3 >'$stand/identity'
rm -rf target
END

# A program that is not the same after it has answered
fresh
checks "$builds"
programs 'rm target/built/verdict; echo yes 1'
gives 2 '' bin/verdict "$R" "$R"
built 2 'for a program that changes while it is asked'
programs 'echo yes 8'

# What rt has found wanting is not asked and not kept: also a program that does not print, for the crate's stdin, what its stdout has
for check in "$builds; exit 1" "$builds; kill -9 \$\$"; do
    fresh
    checks "$check"
    gives 2 '' bin/verdict "$R" "$R"
    none_kept 'whose check failed'
done
fresh
checks ':'
gives 2 '' bin/verdict "$R" "$R"
said '^verdict: rt run verdict has not built crates/verdict/out/verdict, '
fresh
echo in >crates/verdict/stdin
echo out >crates/verdict/stdout
checks "$builds; cat"
gives 2 '' bin/verdict "$R" "$R"
said '^verdict: the program that rt run verdict has built does not print what crates/verdict/stdout has, '
none_kept 'that prints something else'
checks "$builds; [ \"\$(cat)\" = in ] && echo out"
answers 'yes 8' 2 'where the program prints what it must'
rm crates/verdict/stdin crates/verdict/stdout

# What the environment says of compilers and of C is not asked
checks "[ -z \"\${RT_BACKEND-}\${RT_ALLOW_C-}\" ] && $builds"
RT_BACKEND=both RT_ALLOW_C=1 answers 'yes 8' 3 'where the environment names another compiler'

# waits until a pattern is found in one of these files, ten seconds at the most
awaits="awaits() { times=0; until grep -qs \"\$@\" || [ \$times = 100 ]; do sleep 0.1; times=\$((times + 1)); done; }"

# Two at once: each is answered, one builds at a time, and a program is built once
slowly="$awaits; mkdir busy || echo at once >>'$stand/overlaps'; awaits 'another build is at work' '$room/first.err' '$room/second.err'; $builds; rmdir busy"
: >"$stand/overlaps"
at_once() { # TIMES COMMAND COMMAND
    local first second one
    fresh
    rm -f "$room/first.err" "$room/second.err"
    "$2" "$R" "$R" >"$room/first" 2>"$room/first.err" &
    first=$!
    "$3" "$R" "$R" >"$room/second" 2>"$room/second.err" &
    second=$!
    wait "$first" || differs "the first of two at once, $2 and $3, was not answered"
    wait "$second" || differs "the second of two at once, $2 and $3, was not answered"
    for one in first second; do
        [ "$(cat "$room/$one")" = 'yes 8' ] || differs "the $one of two at once, $2 and $3, printed '$(cat "$room/$one")'"
    done
    [ ! -s "$stand/overlaps" ] || differs "two builds were at work at once: $2 and $3"
    grep -q 'another build is at work' "$room/first.err" "$room/second.err" || differs 'neither of two at once says that it waits'
    built "$1" "for two at once, $2 and $3"
    count=$((count + 1))
}
checks "$slowly"
at_once 1 bin/verdict bin/verdict
at_once 2 bin/verdict bin/compatible
# where what the first has built does not answer, one of them builds it again
checks "[ -e first ] || { : >first; cp '$stand/program' kept; echo >'$stand/program'; $builds; mv kept '$stand/program'; }; $slowly"
at_once 2 bin/verdict bin/verdict
rm first
# where one of them is killed, the other builds
fresh
checks "$awaits; [ -e died ] || { : >died; awaits 'another build is at work' '$room/err'; kill -9 \$\$; }; $builds"
rm -f "$room/err"
bin/verdict "$R" "$R" >"$room/first" 2>"$room/first.err" &
first=$!
for _ in $(seq 100); do [ -e died ] || sleep 0.1; done
answers 'yes 8' 2 'where the build it waited for was killed'
status=0
wait "$first" || status=$?
[ "$status" = 2 ] || differs "a build that was killed ended with $status"
[ ! -s "$room/first" ] || differs "a build that was killed printed '$(cat "$room/first")'"
answers 'yes 8' 2 'after a build that was killed'
rm died

# A build whose caller is ended ends with it, and leaves nothing behind: also what left its process group and does not heed a signal, and what rt was copying
while read -r signal alone heeds; do
    fresh
    checks "mktemp >/dev/null; mkdir -p crates/below/out/rt-work-\$\$-copy/work
$alone sh -c 'trap \"\" $heeds; echo \$\$ >working; while :; do sleep 0.1; done' & wait"
    bin/verdict "$R" "$R" >"$room/first" 2>"$room/first.err" &
    first=$!
    for _ in $(seq 100); do [ -s working ] || sleep 0.1; done
    kill -s "$signal" "$first"
    status=0
    wait "$first" 2>/dev/null || status=$?
    [ "$status" -gt 1 ] || differs "status $status of a build that the signal $signal ended"
    ! grep -qs . "/proc/$(cat working)/environ" || differs "a build is at work after the signal $signal"
    [ -z "$(ls -A "$TMPDIR")" ] || differs "a build that the signal $signal ended has left $(ls -A "$TMPDIR") behind"
    [ -z "$(ls -A crates/below/out)" ] || differs "a build that the signal $signal ended has left $(ls -A crates/below/out) behind"
    count=$((count + 1))
    rm working
done <<'END'
TERM exec INT
HUP setsid INT HUP TERM
END

# An interrupt at a terminal, which reaches the command and all of its group at once
for _ in 1 2 3 4 5; do
    fresh
    checks 'sh -c "echo \$\$ >working; exec sleep 60" & wait'
    status=0
    { for _ in $(seq 100); do [ -s working ] || sleep 0.1; done; printf '\003'; } |
        timeout 20 script -qec "bin/verdict '$R' '$R'" /dev/null >"$room/terminal" || status=$?
    [ "$status" -gt 1 ] && [ "$status" != 124 ] || differs "status $status of a build that was interrupted"
    ! grep -qs . "/proc/$(cat working)/environ" || differs 'a build is at work after an interrupt'
    [ -z "$(ls -A "$TMPDIR")" ] || differs "a build that was interrupted has left $(ls -A "$TMPDIR") behind"
    count=$((count + 1))
    rm working
done

# Where a build is: each crate with its number and the time, in a line, and on one line of a terminal; and what rt waits for
proves="$awaits
for it in below \$crate; do
    echo note >&2
    echo \"rt: chose --jobs 2 for \$it\" >&2
    awaits \": \$it (\" '$room/err' '$room/terminal'
    echo \"fn \$it::f: proved\" >&2
done
$builds"
fresh
checks "$proves"
rm -f "$room/err" "$room/terminal"
answers 'yes 8' 1 'while it says where it is'
for pattern in '^verdict: target/bin/verdict is not built yet: building it\. The first build proves 2 crates, which took .* cores\.$' \
    '^verdict: proving 1 of 2: below (.* s)$' '^verdict: proving 2 of 2: verdict (.* s)$'; do
    said "$pattern"
done
[ "$(grep -vc '^verdict: built (.* s)$' "$room/err")" = 3 ] || differs "more is said of a build than where it is: $(cat "$room/err")"
rm target/bin/verdict
checks "echo 'rt: nothing has changed since the last proved build' >&2; $builds"
answers 'yes 8' 2 'where there is nothing to prove'
[ ! -s "$room/err" ] || differs "a build with nothing to prove says '$(cat "$room/err")'"
rm target/bin/verdict "$room/err"
checks "$awaits; echo 'rt: waiting for another rt to finish in below' >&2; awaits 'verdict: waiting for another rt' '$room/err'; $builds"
answers 'yes 8' 3 'where another rt is at work'
said '^verdict: waiting for another rt to finish in below$'
rm target/bin/verdict "$room/err"
checks "$proves"
script -qec "bin/verdict '$R' '$R'" /dev/null >"$room/terminal" </dev/null || differs 'bin/verdict gave no yes on a terminal'
tr '\r' '\n' <"$room/terminal" >"$room/err"
said 'verdict: proving 1 of 2: below (.* s)$'
said 'verdict: proving 2 of 2: verdict (.* s)$'
said 'yes 8$'
! grep -q 'The first build' "$room/err" || differs 'a later build is said to be the first'
[ "$(grep -vc 'verdict: built (.* s)' "$room/terminal")" = 2 ] ||
    differs "where a build is takes more than one line of a terminal: $(cat -v "$room/terminal")"

# What keeps a build from being made, in one sentence that says what to do
without_rt=
IFS=: read -ra folders <<<"$PATH"
for folder in "${folders[@]}"; do
    [ -x "$folder/rt" ] || without_rt+=${without_rt:+:}$folder
done
fresh
checks "$builds"
gives 2 '' env PATH="$without_rt" bin/verdict "$R" "$R"
said '^verdict: target/bin/verdict is not built yet, and rt, which builds it, is not on the PATH: README.md says where rt comes from$'
answers 'yes 8' 1 'before rt goes'
gives 0 'yes 8' env PATH="$without_rt" bin/verdict "$R" "$R"
fresh
: >target
gives 2 '' bin/verdict "$R" "$R"
said '^verdict: nothing can be written in .* (.*): get leave to write there, or clone the repository to where you have it and ask there$'
rm target
: >crates/below/out
gives 2 '' bin/verdict "$R" "$R"
said '^verdict: nothing can be written in .* (.*): get leave to write there, or clone the repository to where you have it and ask there$'
rm crates/below/out
scripted "$stand/uname" 'echo aarch64'
gives 2 '' bin/verdict "$R" "$R"
said '^verdict: target/bin/verdict is not built yet, and rt, which builds it, runs on x86-64 alone, and not on aarch64$'
rm "$stand/uname"
checks 'echo "cp: error writing crates/verdict/out/verdict: No space left on device" >&2; exit 1'
gives 2 '' bin/verdict "$R" "$R"
said '^verdict: the disk of .* is full: make room, .*, and ask again$'
[ "$(wc -l <"$room/err")" = 1 ] || differs "more than a sentence is said of a full disk: $(cat "$room/err")"
gives 2 '' bin/verdict --version
said '^verdict: .* commit'
PATH=${PATH#"$stand":}
cd "$root" || exit
