#!/usr/bin/env bash
# Installs what is built under an empty prefix; looks at what the library gives; builds the example of
# docs/HOSTS.md in empty folders with pkg-config alone, by the very lines of the document, in C, C++ and
# Rust, and compares what each prints; tries completions, man pages, refusals that are not looked at, and
# files that were there before; then uninstalls and sees that nothing is left. Usage: test-package.sh
set -euo pipefail
cd "$(dirname "$0")/.."
scripts/tools.sh make gcc g++ cargo rustc pkg-config

tree=$PWD
home=$(mktemp -d)
trap 'rm -rf "$home"' EXIT
prefix=$home/prefix
checks=0

wrong() { # WHAT..
    printf 'the package: %s\n' "$*"
    exit 1
}
same() { # WHAT EXPECTED FOUND
    checks=$((checks + 1))
    [ "$2" = "$3" ] || { diff <(printf '%s\n' "$2") <(printf '%s\n' "$3") || true; wrong "$1"; }
}
install() { # WORDS OF MAKE..
    make --no-print-directory install "PREFIX=$prefix" "$@" >"$home/said" 2>&1
}

unset SETTLEMENT_DAY_DIR CARGO_TARGET_DIR MAKEFLAGS PREFIX DESTDIR
install || { cat "$home/said"; wrong 'it is not installed'; }
export PKG_CONFIG_PATH=$prefix/lib/pkgconfig LD_LIBRARY_PATH=$prefix/lib
version=$(scripts/version.sh)
archive=$prefix/lib/libsettlement_day.a
shared=$prefix/lib/libsettlement_day.so.${version%.*}

# What the library gives is what the header declares, and nothing else; it needs the C library alone.
declared=$(sed -n 's/^\(uint32_t\|void\|struct day_[a-z]*\) \(\(day\|entry\)_[a-z_]*\)(.*/\2/p' \
    "$prefix/include/settlement_day.h" | sort)
given() { # FILE WORDS OF NM..
    nm --extern-only --defined-only --format=just-symbols "${@:2}" "$1" | grep -v ':$\|^$' | sort
}
same 'what the archive gives' "$declared" "$(given "$archive")"
same 'what the shared library gives' "$declared" "$(given "$shared" -D)"
same 'what the shared library needs' 'libc.so.6' \
    "$(readelf -dW "$shared" | sed -n 's/.*(NEEDED).*\[\(.*\)\]/\1/p')"
same 'the soname' "libsettlement_day.so.${version%%.*}" \
    "$(readelf -dW "$shared" | sed -n 's/.*(SONAME).*\[\(.*\)\]/\1/p')"
same 'text that the loader has to change' '' "$(readelf -dW "$shared" | grep TEXTREL || true)"
same 'where the links lead' "$(basename "$shared")" \
    "$(readlink "$prefix/lib/libsettlement_day.so" "$prefix/lib/libsettlement_day.so.${version%%.*}" | sort -u)"
same 'the version that pkg-config tells' "$version" "$(pkg-config --modversion settlement-day)"

# What crates share under one name stays apart where they are joined, and a function is in one of them.
mkdir "$home/join"
crate() { # NAME NUMBER FUNCTION
    printf 'int shared(void) { return %s; }\nint %s(void) { return shared(); }\n' "$2" "$3" |
        gcc -fPIC -O0 -c -x c -o "$home/join/$1.o" -
    ar rcs "$home/join/lib$1.a" "$home/join/$1.o"
}
crate one 1 day_one
crate two 2 day_two
crate other 3 day_one
scripts/join.sh "$home/join/joined.a" "$home/join/libone.a" "$home/join/libtwo.a" >/dev/null
same 'what is global of joined crates' $'day_one\nday_two\nday_version' "$(given "$home/join/joined.a")"
echo 'int day_one(void); int day_two(void); int main(void) { return day_one() * 10 + day_two(); }' |
    gcc -o "$home/join/both" -x c - -x none "$home/join/joined.a"
status=0
"$home/join/both" || status=$?
same 'what joined crates call' 12 "$status"
if scripts/join.sh "$home/join/twice.a" "$home/join/libone.a" "$home/join/libother.a" 2>"$home/said"; then
    wrong 'a function of two crates is joined'
fi
same 'what is said of it' 'in more than one crate: day_one' "$(cat "$home/said")"

# The example of the document, by its own lines, in folders that are empty before.
block() { # KIND NUMBER: a block of code of docs/HOSTS.md
    awk -v kind="$1" -v wanted="$2" '
        $0 == "```" kind { inside = ++number == wanted; next }
        /^```/ { inside = 0 }
        inside' "$tree/docs/HOSTS.md"
}
expected=$(block text 1)
[ -n "$expected" ] || wrong 'docs/HOSTS.md has no lines that the example prints'
mkdir "$home/c" "$home/rust"
(cd "$home/c" && block c 1 >day.c && bash -euc "$(block sh 1)") || wrong 'the example in C and C++ is not built'
for program in day day-in-c++ day-with-archive; do
    same "what $program prints" "$expected" "$("$home/c/$program")"
done
same 'what the programs need' "libsettlement_day.so.${version%%.*}" \
    "$(cd "$home/c" && readelf -dW day day-in-c++ day-with-archive | grep -o 'libsettlement_day[^]]*' | sort -u)"
(cd "$home/rust" && bash -euc "$(block sh 2 | head -n 2)" && block rust 1 >src/main.rs &&
    bash -euc "$(block sh 2 | tail -n +3)") || wrong 'the example in Rust is not built'
same 'what the example in Rust prints' "$expected" "$("$home/rust/target/debug/day-in-rust")"

# A refusal that is not looked at is a warning, in each of the languages; one that is, is none.
cat >"$home/c/ignored.c" <<'END'
#include <settlement_day.h>
int main(void)
{
    static struct day_book book;
    uint64_t yen;
#ifdef IGNORED
    day_value(1, 1, 0, &yen);
    day_book_close(&book);
#endif
    return day_value(1, 1, 0, &yen) == DAY_DONE && day_book_close(&book).refusal == DAY_DONE ? 0 : 1;
}
END
for compiler in 'gcc -std=c11' 'gcc -std=c2x' 'g++ -std=c++11 -x c++' 'g++ -std=c++17 -x c++'; do
    compile="$compiler -Wall -Wextra -Wpedantic -c -o $home/c/ignored.o $(pkg-config --cflags settlement-day)"
    same "$compiler where all is looked at" '' "$($compile "$home/c/ignored.c" 2>&1)"
    warnings=$($compile -DIGNORED "$home/c/ignored.c" 2>&1 | grep -c 'unused-result' || true)
    same "$compiler where two refusals are not looked at" 2 "$warnings"
done

# Programs and man pages.
printf 'trade 0 1 2 3\nclose\ncutoff\n' >"$home/day.txt"
lines=$'0 trade 0 0\n2 close 0 0\n3 cutoff 0 1\nF 0 1 2 3 0'
same 'what the installed tape and dayrun print' "$lines" "$(cd "$home" && "$prefix/bin/tape" run day.txt)"
same 'the version of tape' "tape $version" "$("$prefix/bin/tape" --version)"
same 'the version of treasury' "treasury $version" "$("$prefix/bin/treasury" --version)"
for program in "$prefix"/bin/*; do
    [ -s "$prefix/share/man/man1/$(basename "$program").1" ] || wrong "no man page of $program"
done
for name in $declared; do
    grep -qw -- "$name" "$prefix/share/man/man3/settlement_day.3" || wrong "settlement_day(3) does not name $name"
done
if command -v man >/dev/null; then
    for page in "$prefix"/share/man/man?/*; do
        same "what man says of $page" '' "$(man --warnings -l "$page" 2>&1 >/dev/null)"
    done
fi
same 'versions that were not put into a man page' '' "$(grep -l '@VERSION@' -r "$prefix/share" || true)"

# The schema of JSON, where pkg-config tells it is.
same 'the schema of JSON' "$(cat docs/settlement-day.schema.json)" \
    "$(cat "$(pkg-config --variable=schema settlement-day)")"

# Completions in bash: after each verb of the tool its options, by the sources of the verbs.
completed() { # WORDS OF THE COMMAND.., the last of them to be completed: what is offered
    bash -c 'source "$0"; COMP_WORDS=("$@"); COMP_CWORD=$(($# - 1)); _'"$1"'; printf "%s\n" "${COMPREPLY[@]}"' \
        "$prefix/share/bash-completion/completions/$1" "$@" | LC_ALL=C sort
}
verbs=$(sed -n 's/^    name: "\(.*\)",$/\1/p' tape/src/verbs/*.rs)
same 'the verbs that are completed' "$(printf '%s\n' "$verbs" --help --version | LC_ALL=C sort)" "$(completed tape '')"
for verb in $verbs; do
    named=$(sed -n 's/^tape '"$verb"' \(.*\)$/\1/p' "tape/src/verbs/$verb.rs" | grep -o -- '--[a-z]*' || true)
    same "the options of $verb that are completed" "$(printf '%s\n' "$named" -o --force | LC_ALL=C sort -u)" \
        "$(completed tape "$verb" -)"
done
same 'a verb that is completed' explain "$(completed tape expl)"
same 'a name, which bash completes itself' '' "$(completed tape check da)"
same 'a value, which is no option' '' "$(completed tape explain --day -)"
same 'the options of treasury' $'--factor\n--funds\n--help\n--json\n--version' "$(completed treasury -)"
of_daybook=$(sed -n 's/^daybook \([a-z][a-z]*\) .*/\1/p' daybook/src/arguments.rs)
same 'the words of daybook that are completed' \
    "$(printf '%s\n' "$of_daybook" --batch --help --json --version | LC_ALL=C sort)" "$(completed daybook '')"
same 'the options of daybook explain' --json "$(completed daybook explain -)"
same 'the options of daybook without a verb' $'--batch\n--help\n--json\n--version' "$(completed daybook --json -)"

# Completions in zsh and fish: the same words. Where a shell is not there, its file has to name them.
in_zsh() { # WORDS OF THE COMMAND..: what the function offers, which is called without the shell's own
    zsh -fc 'compadd() { shift; print -l -- "$@"; }; _files() { }; file=$1; shift
        _arguments() { print -l -- "${@%%[=:]*}" | grep "^-"; }
        words=("$@"); CURRENT=$#; source "$file"' zsh "$prefix/share/zsh/site-functions/_$1" "$@" | LC_ALL=C sort -u
}
in_fish() { # WORDS OF THE COMMAND..: what fish offers
    fish --no-config -c 'source $argv[1]; complete -C "$argv[2]"' \
        "$prefix/share/fish/vendor_completions.d/$1.fish" "$*" | cut -f 1 | LC_ALL=C sort -u
}
named_in() { # FILE WORDS..: each word is in the file, as an option of the shell that it is for
    local word
    for word in "${@:2}"; do
        grep -qE -- "(^|[^a-z-])(${word}|-l ${word#--}|-s ${word#-})([^a-z-]|\$)" "$1" || wrong "$1 does not name $word"
        checks=$((checks + 1))
    done
}
files=(zsh/site-functions/_tape zsh/site-functions/_treasury zsh/site-functions/_daybook
    fish/vendor_completions.d/{tape,treasury,daybook}.fish)
for file in "${files[@]}"; do
    program=$(basename "$file" .fish)
    # shellcheck disable=SC2046
    named_in "$prefix/share/$file" $("$prefix/bin/${program#_}" --completion | tr ' ' '\n' | sed 's/=.*//' | sort -u)
done
for shell in zsh fish; do
    command -v "$shell" >/dev/null || { echo "completions in $shell: not run, there is no $shell"; continue; }
    same "the verbs in $shell" "$(LC_ALL=C sort <<<"$verbs")" "$("in_$shell" tape '')"
    for verb in $verbs; do
        same "the options of $verb in $shell" "$(completed tape "$verb" -)" "$("in_$shell" tape "$verb" -)"
    done
    same "the options of treasury in $shell" "$(completed treasury -)" "$("in_$shell" treasury -)"
    same "the options of daybook cut in $shell" --yes "$("in_$shell" daybook cut -)"
done
if scripts/completion.sh "$prefix/bin/tape" csh >/dev/null 2>&1; then wrong 'a shell that is not known'; fi

# Again, over what is there; then uninstalled, and nothing is left.
install || { cat "$home/said"; wrong 'it is not installed again'; }
make --no-print-directory uninstall "PREFIX=$prefix" >/dev/null || wrong 'it is not uninstalled'
[ ! -e "$prefix" ] || wrong "left behind: $(find "$prefix")"
make --no-print-directory uninstall "PREFIX=$prefix" >/dev/null 2>&1 && wrong 'uninstalled where nothing is'

# What was there before stays, and what is another's is not replaced.
mkdir -p "$prefix/bin"
echo mine >"$prefix/bin/other"
install || { cat "$home/said"; wrong 'it is not installed beside another file'; }
make --no-print-directory uninstall "PREFIX=$prefix" >/dev/null
same 'what is left beside another file' "$prefix/bin/other" "$(find "$prefix" -type f)"
echo mine >"$prefix/bin/tape"
if install; then wrong 'a file of another is replaced'; fi
same 'what is left where a file of another stands' "$prefix/bin/other"$'\n'"$prefix/bin/tape" \
    "$(find "$prefix" ! -type d | sort)"
for bad in relative/prefix '' "$home/a b" "$home/a'b \$(c)"; do
    if make --no-print-directory install "PREFIX=$bad" >/dev/null 2>&1; then wrong "installed under '$bad'"; fi
done

# For a package: the files stand under DESTDIR, and name the prefix alone.
rm -rf "$prefix"
install "DESTDIR=$home/stage" || { cat "$home/said"; wrong 'it is not installed under DESTDIR'; }
[ ! -e "$prefix" ] || wrong 'DESTDIR is not looked at'
same 'files that name DESTDIR' '' "$(grep -rl -- "$home/stage" "$home/stage" || true)"
make --no-print-directory uninstall "PREFIX=$prefix" "DESTDIR=$home/stage" >/dev/null
same 'what is left under DESTDIR' "$home/stage" "$(find "$home/stage")"

echo "the package: installed, built with in C, C++ and Rust, and uninstalled as it must be ($checks checks)"
