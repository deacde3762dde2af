#!/usr/bin/env bash
# Shows how far `rt` is, out of what it prints: its output is read from standard input and kept
# whole in a file; beside it LOG.times has when each crate was proved and each wrong edit refused. The
# prover's notes and the line 'N passed, M failed' are not shown; every line about an error is.
# Usage: rt check NAME 2>&1 | progress.sh LOG [NAME..]
# The names are the crates that are proved, with all that they depend on; none are all of them,
# with their must-fail edits. PROGRESS_LATER names libraries whose archives are made after these: their
# time is counted too.
set -euo pipefail
cd "$(dirname "$0")/.."

log=$1
shift
waiting=${PROGRESS_SECONDS:-60} # seconds without a line after which it is said that rt is still at work

# The crates of these names and all that they depend on, in no order; of no name, all.
needed() {
    awk -v wanted="$*" '
        { sub(/#.*/, ""); if (!index($0, ":")) next
          split($0, part, ":"); name = part[1]; sub(/ .*/, "", name); uses[name] = part[2] }
        function visit(name,    i, n, list) {
            if (!(name in uses) || name in seen) return
            seen[name] = 1
            n = split(uses[name], list, " ")
            for (i = 1; i <= n; i++) visit(list[i])
            print name
        }
        END {
            n = split(wanted, list, " ")
            for (i = 1; i <= n; i++) visit(list[i])
            if (n == 0) for (name in uses) visit(name)
        }' crates.txt
}

edits_of() { # NAME
    [ "$edits_too" -eq 0 ] || find "crates/$1/must-fail" -name '*.edit' 2>/dev/null || true
}

edits_too=0
[ $# -gt 0 ] || edits_too=1

# What a crate's proof is worth, by its text: so many seconds of one core a kilobyte, and a few for any.
# An edit is worth as much as a check after a change.
declare -A worth
to_prove() { # NAME
    if [ -z "${worth[$1]:-}" ]; then
        local bytes
        bytes=$(find "crates/$1/src" "crates/$1/specs" "crates/$1/proofs" -type f -printf '%s\n' 2>/dev/null | awk '{ n += $1 } END { print n + 0 }')
        worth[$1]=$((8 + bytes / 1000))
    fi
    echo "${worth[$1]}"
}

to_refuse() { # NAME of the edit's crate
    echo $((5 + $(to_prove "$1") / 2))
}

crates=0 edits=0 left=0
for name in $(needed "$@"); do
    of_crate=$(edits_of "$name" | wc -l)
    crates=$((crates + 1)) edits=$((edits + of_crate))
    left=$((left + $(to_prove "$name") + of_crate * $(to_refuse "$name")))
done
libraries=0
for name in ${PROGRESS_LATER:-}; do
    libraries=$((libraries + 1)) left=$((left + $(to_prove "${name}_c")))
done
all=$left
cores=$(nproc 2>/dev/null || echo 1)

# The seconds since the start; a test names a file that has them.
gone() {
    if [ -n "${PROGRESS_CLOCK:-}" ]; then cat "$PROGRESS_CLOCK"; else echo $((SECONDS - first)); fi
}

# How long so much takes by the clock. At the beginning that is its worth divided by the cores; the more
# is proved, the more the pace so far counts.
by_the_clock() { # WORTH
    local weight=30 # seconds by the clock for which the worth speaks
    echo $(($1 * ($(gone) + weight) / (all - left + weight * cores)))
}

minutes() { # WORTH
    local whole=$((($(by_the_clock "$1") + 59) / 60))
    if [ "$whole" -le 1 ]; then echo 'about a minute'; else echo "about $whole minutes"; fi
}

some() { # COUNT THING: with an s where they are not one
    if [ "$1" -eq 1 ]; then echo "1 $2"; else echo "$1 $2s"; fi
}

first=$SECONDS
what=$(some "$crates" crate)
[ "$edits" -eq 0 ] || what="$what, and $(some "$edits" 'wrong edit') to be refused"
[ "$libraries" -eq 0 ] || what="$what, then $(some "$libraries" library | sed 's/librarys/libraries/')"
[ "$left" -eq 0 ] || echo "To be proved, where it was not before: $what; at most $(minutes "$left") on $(some "$cores" core)."

to_come() { [ "$left" -le 0 ] || printf '; at most %s to come' "$(minutes "$left")"; }

proved=0 refused=0
declare -A begun
note() { printf '%s %s\n' "$1" "$(gone)" >>"$log.times"; }
show() { # LINE
    local line=$1 name
    case $line in
    [0-9]*' passed, '[0-9]*' failed') ;;
    'library '*': modules '* | 'crate '*': modules '* | 'statements '* | 'logic='* | 'logic /'* | 'axioms '* | 'linked target='*) ;;
    'fn '*': proved' | 'enum '*': proved' | 'struct '*': proved' | 'impl '*': proved' | 'checked '*' of '* | 'empty contracts: 0 found'*) ;;
    *': note: large solution'* | *': note: `rw` took the first instance'* | 'note: only the first of '*) ;;
    *'note: no function with a body'* | 'note: finished '* | 'rt: rt check --fix-imports'* | 'rt: '*': begins with what a check kept in '*) ;;
    'rt: must-fail '*': refused, as it must be'*)
        name=${line#rt: must-fail } name=${name%%:*} name=${name%.edit}
        refused=$((refused + 1)) left=$((left - $(to_refuse "${name%%/*}")))
        note "refused $name"
        printf 'refused %d of %d: %s\n' "$refused" "$edits" "$name"
        ;;
    '== summary' | *': ok' | [0-9]*' of '[0-9]*' crates ok' | 'only=0 proved=0') ;;
    '== '*)
        # without the gate there is no other line where a crate is done
        name=${line#== }
        [ "$edits_too" -eq 0 ] || return 0
        proved=$((proved + 1)) left=$((left - $(to_prove "$name")))
        printf 'done %d of %d: %s%s\n' "$proved" "$crates" "$name" "$(to_come)"
        ;;
    'rt: chose --jobs '*' for '*)
        # without the gate there is no line where a crate is proved, but one where it is begun
        name=${line##* }
        [ "$edits_too" -eq 0 ] && [ -z "${begun[$name]:-}" ] || return 0
        begun[$name]=1
        printf 'proving %d of %d: %s\n' "${#begun[@]}" "$crates" "$name"
        ;;
    'rt: '*': its tests are proved' | 'rt: '*' must-fail edits were tried by an earlier run on this machine'*) ;;
    'rt: '*' is kept: an earlier run on this machine '*)
        # proved before: it is only counted
        name=${line#rt: } name=${name%% *}
        proved=$((proved + 1)) left=$((left - $(to_prove "$name")))
        ;;
    'rt: '*' proved')
        name=${line#rt: } name=${name%% *}
        proved=$((proved + 1)) left=$((left - $(to_prove "$name")))
        note "proved $name"
        printf 'proved %d of %d: %s%s\n' "$proved" "$crates" "$name" "$(to_come)"
        ;;
    *) printf '%s\n' "$line" ;;
    esac
}

: >"$log"
: >"$log.times"
part='' # of a line whose end has not come yet
while true; do
    status=0
    IFS= read -r -t "$waiting" line || status=$?
    part=$part$line
    if [ "$status" -gt 128 ]; then
        printf '   %d s: rt is at work\n' "$(gone)"
        continue
    fi
    if [ "$status" -eq 0 ] || [ -n "$part" ]; then
        printf '%s\n' "$part" >>"$log"
        show "$part"
    fi
    part=''
    [ "$status" -eq 0 ] || break
done
