#!/usr/bin/env bash
# Tests `make day` and `make run` on a copy of the scripts with tools that only note how they are called:
# which names a tape may have, when it is proved again, what is said of it, and what an interrupted run
# leaves behind.
set -euo pipefail
cd "$(dirname "$0")/.."

home=$(mktemp -d)
trap 'rm -rf "$home"' EXIT
mkdir -p "$home/bin" "$home/crates/dayrun/src" "$home/crates/dayrun/must-fail" "$home/docs" "$home/temporary" "$home/host"
cp -R scripts Makefile Cargo.toml tapes "$home"
cp docs/CHECK-TIMES.md "$home/docs"
cp host/settlement_day.h host/version.c "$home/host"
echo 'fn main() {}' >"$home/crates/dayrun/src/main.rt"
printf '%s\n' dayrun: desk: entries: host: trust: >"$home/crates.txt"
for crate in desk entries host trust; do mkdir "$home/crates/$crate"; done
for crate in $(make --no-print-directory list); do mkdir "$home/crates/${crate}_c"; done

tool() { # NAME: its script is read from standard input
    { echo '#!/bin/sh' && cat; } >"$home/bin/$1"
    chmod 755 "$home/bin/$1"
}
tool rt <<'END'
echo "rt $*" >>"$TEST_HOME/called"
case $1 in
all) ;;
run) mkdir -p out
    if cmp -s src/main.rt out/from; then exit; fi
    [ ! -e "$TEST_HOME/fails" ] || exit 1
    { echo '#!/bin/sh' && date +%N; } >out/dayrun
    chmod 755 out/dayrun
    cp src/main.rt out/from
    echo "logic=proved functions=1" >&2 ;;
lib) mkdir -p out && : >"out/lib$(basename "$PWD").a" ;;
try) [ ! -e "$TEST_HOME/slow" ] || sleep 20
    cat "$TEST_HOME/tapes/p5-to-p9.expected" ;;
esac
END
tool gcc </dev/null
# The archives that rt notes are empty: nothing is joined of them.
for script in join share; do
    printf '#!/bin/sh\nmkdir -p build/lib && : >"$1"\n' >"$home/scripts/$script.sh"
done
tool rustc <<<'echo rustc 99.0'
tool cargo <<'END'
[ "$1" = --version ] && { echo cargo 99.0; exit; }
mkdir -p build/release
printf '#!/bin/sh\nprintf "<%%s>" "$@"\necho\n' >build/release/tape
chmod 755 build/release/tape
END
export PATH="$home/bin:$PATH" TEST_HOME="$home" TMPDIR="$home/temporary"
unset MAKEFLAGS MAKELEVEL TAPE
cd "$home"

wrong() { # WHAT
    printf 'make day and make run: %s\n%s\n' "$1" "${said:-}"
    exit 1
}
calls() { # how often rt was called
    cat called 2>/dev/null | wc -l
}
day() { # WORDS OF MAKE..: what is said, and the status
    status=0
    said=$(make --no-print-directory day "$@" 2>&1) || status=$?
}

# A file that is not there is told before anything is proved.
for name in nowhere.txt crates ''; do
    day "TAPE=$name"
    [ "$status" -ne 0 ] && [ "$(calls)" -eq 0 ] || wrong "proved before it looked for '$name'"
done

# Any name is a name, on the command line and in the environment.
count=0
for name in plain.txt "a'b.txt" 'a"b.txt' 'a$b.txt' 'a$(touch made)b.txt' 'a`touch made`b' 'a b;c&d#e.txt' \
    'a$$b' '-x.txt' '円.txt' 'a\b.txt'; do
    : >"$name"
    for way in words environment; do
        if [ "$way" = words ]; then day "TAPE=$name"; else TAPE=$name day; fi
        [ "$status" -eq 0 ] || wrong "status $status for $name"
        grep -qxF -- "$name, run by the proved program target/bin/dayrun:" <<<"$said" || wrong "name $name"
        grep -qxF -- "<run><--><$name>" <<<"$said" || wrong "what is run for $name"
        grep -qxF -- "<explain><--><$name>" <<<"$said" || wrong "what is told of $name"
        count=$((count + 1))
    done
done
[ ! -e made ] || wrong 'a name was run as a command'

# What is proved is not proved again; where a source has changed, whatever its date, it is.
before=$(calls)
day TAPE=plain.txt
[ "$(calls)" -eq "$before" ] || wrong 'proved again without a change'
echo 'fn main() { }' >crates/dayrun/src/main.rt
touch -d '2000-01-01' crates/dayrun/src/main.rt
: >fails
day TAPE=plain.txt
[ "$status" -ne 0 ] || wrong 'a changed source that is not proved is run'
! grep -q 'proved program' <<<"$said" || wrong 'called proved where a source has changed'
rm fails
day TAPE=plain.txt
grep -q 'proved program' <<<"$said" || wrong 'not proved again after a change'
[ "$(calls)" -gt "$before" ] || wrong 'a change is not noticed'
before=$(calls)
: >crates/dayrun/must-fail/one.edit
day TAPE=plain.txt
[ "$(calls)" -eq "$before" ] || wrong 'a wrong edit is no part of the program'
echo 'echo another' >>target/bin/dayrun
day TAPE=plain.txt
grep -q 'proved program' <<<"$said" && ! grep -q another target/bin/dayrun ||
    wrong 'another program is taken for the proved one'
rm target/bin/dayrun
day TAPE=plain.txt
[ "$status" -eq 0 ] && [ -x target/bin/dayrun ] || wrong 'a program that is missing is not made'

# make run: the story at once, and 'proved' only behind the proof.
rm -rf build target crates/*/out called
status=0
said=$(make --no-print-directory run 2>&1) || status=$?
[ "$status" -eq 0 ] || wrong "make run ends with $status"
place() { # TEXT: the first line that has it
    grep -nF -m 1 -- "$1" <<<"$said" | cut -d : -f 1 || true
}
told=$(place 'account 4 sells account 1 230,000 lots')
next=$(place 'Next come the proofs')
proved=$(place 'Proved: the program')
shown=$(place 'run by the proved program')
[ -n "$told" ] && [ -n "$next" ] && [ -n "$proved" ] && [ "$told" -lt "$next" ] && [ "$next" -lt "$proved" ] && [ "$proved" -lt "$shown" ] ||
    wrong 'the order of what make run shows'
! head -n "$next" <<<"$said" | grep -q 'is proved$\|is proved\.' || wrong 'proved before it is'
said=$(make --no-print-directory run 2>&1)
! grep -q 'NOT PROVED' <<<"$said" || wrong 'not proved though it is'

# An interrupted run leaves nothing behind.
for signal in TERM HUP; do
    rm -rf build target crates/*/out
    : >slow
    setsid make --no-print-directory run >said 2>&1 &
    group=$!
    for _ in $(seq 200); do
        [ -z "$(ls -A temporary)" ] || [ ! -s temporary/*/crates.txt ] || break
        sleep 0.05
    done
    [ -n "$(ls -A temporary)" ] || wrong 'the run did not begin'
    kill -s "$signal" -- "-$group"
    wait "$group" 2>/dev/null || true
    for _ in $(seq 100); do
        [ -n "$(ls -A temporary)" ] || break
        sleep 0.05
    done
    said=$(ls -A temporary)
    [ -z "$said" ] || wrong "left behind by $signal"
    rm slow
done
echo "make day and make run: as they must be ($count names of tapes)"
