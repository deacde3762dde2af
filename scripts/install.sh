#!/usr/bin/env bash
# Installs what is built under a prefix: header, archive, shared library, pkg-config file, programs, man
# pages, completions, the schema of JSON and the Rust crate. What was installed there before is removed first; a file that
# stands there and was not installed by this is left, and then nothing is installed. What was installed
# is listed in PREFIX/share/settlement-day/installed, for uninstall.sh.
# Usage: install.sh DESTDIR PREFIX ARCHIVE SHARED 'PROGRAM..' 'COMPLETED..'
set -euo pipefail
cd "$(dirname "$0")/.."

destdir=${1%/} prefix=${2%/} archive=$3 shared=$4
read -ra programs <<<"$5"
read -ra completed <<<"$6"
[[ $prefix =~ ^/[^[:space:]]+$ ]] || {
    echo "PREFIX is '$2': give an absolute path without blanks, which pkg-config cannot carry" >&2
    exit 1
}
for built in "$archive" "$shared" "${programs[@]}"; do
    [ -f "$built" ] || { echo "there is no $built: \`make install\` builds it" >&2; exit 1; }
done

version=$(scripts/version.sh)
list=$prefix/share/settlement-day/installed
work=$(mktemp -d)
trap 'rm -rf "$work"' EXIT

modes=() sources=() targets=()
put() { # MODE SOURCE TARGET: a file; of mode 'link' the source is what the link names
    modes+=("$1") sources+=("$2") targets+=("$prefix/$3")
}

# The library.
file=$(basename "$shared")
put 644 host/settlement_day.h include/settlement_day.h
put 644 "$archive" "lib/$(basename "$archive")"
put 755 "$shared" "lib/$file"
put link "$file" "lib/${file%.*}"
put link "$file" "lib/${file%.*.*}"
cat >"$work/settlement-day.pc" <<END
prefix=$prefix
libdir=\${prefix}/lib
includedir=\${prefix}/include
archive=\${libdir}/$(basename "$archive")
crate=\${prefix}/share/settlement-day/crate
schema=\${prefix}/share/settlement-day/settlement-day.schema.json

Name: settlement-day
Description: The settlement-day book of a bond clearing house
Version: $version
Cflags: -I\${includedir}
Libs: -L\${libdir} -lsettlement_day
END
put 644 "$work/settlement-day.pc" lib/pkgconfig/settlement-day.pc

# The programs, their man pages and completions.
for program in "${programs[@]}"; do
    put 755 "$program" "bin/$(basename "$program")"
done
for page in docs/man/*.[13]; do
    sed "s/@VERSION@/$version/" "$page" >"$work/$(basename "$page")"
    put 644 "$work/$(basename "$page")" "share/man/man${page##*.}/$(basename "$page")"
done
completion() { # PROGRAM SHELL TARGET
    local made
    made=$work/$(basename "$1").$2
    scripts/completion.sh "$1" "$2" >"$made"
    put 644 "$made" "$3"
}
for name in "${completed[@]}"; do
    for program in "${programs[@]}"; do
        [ "$(basename "$program")" = "$name" ] || continue
        completion "$program" bash "share/bash-completion/completions/$name"
        completion "$program" zsh "share/zsh/site-functions/_$name"
        completion "$program" fish "share/fish/vendor_completions.d/$name.fish"
    done
done

# The schema of what the programs print as JSON.
put 644 docs/settlement-day.schema.json share/settlement-day/settlement-day.schema.json

# The crate: its manifest stands alone, without the workspace.
rust=$(sed -n 's/^rust-version = "\(.*\)"$/\1/p' Cargo.toml)
sed -e "s/^version.workspace = true$/version = \"$version\"/" \
    -e "s/^rust-version.workspace = true$/rust-version = \"$rust\"/" library/Cargo.toml >"$work/Cargo.toml"
put 644 "$work/Cargo.toml" share/settlement-day/crate/Cargo.toml
while IFS= read -r source; do
    put 644 "$source" "share/settlement-day/crate/${source#library/}"
done < <(find library/build.rs library/src -name '*.rs' | LC_ALL=C sort)

[ ! -f "$destdir$list" ] || scripts/uninstall.sh "$destdir" "$prefix" >/dev/null
for target in "${targets[@]}" "$list"; do
    if [ -e "$destdir$target" ] || [ -L "$destdir$target" ]; then
        echo "$destdir$target is there and was not installed by this: nothing is installed" >&2
        exit 1
    fi
done

made=() # what is listed before there is a list
note() { # KIND PATH
    if [ -f "$destdir$list" ]; then
        printf '%s %s\n' "$1" "$2" >>"$destdir$list"
    else
        made+=("$1 $2")
    fi
}
folder() { # PATH: makes it, and notes each folder that was not there
    [ -d "$destdir$1/" ] && return
    folder "${1%/*}"
    mkdir -m 755 "$destdir$1"
    note d "$1"
}

[ -z "$destdir" ] || mkdir -p "$destdir"
folder "${list%/*}"
made+=("f $list")
printf '%s\n' "${made[@]}" >"$destdir$list"
chmod 644 "$destdir$list"
for at in "${!targets[@]}"; do
    target=${targets[at]}
    folder "${target%/*}"
    note f "$target"
    case ${modes[at]} in
    link) ln -s "${sources[at]}" "$destdir$target" ;;
    *) install -m "${modes[at]}" "${sources[at]}" "$destdir$target" ;;
    esac
done
echo "installed: settlement-day $version, ${#targets[@]} files under $destdir$prefix"
