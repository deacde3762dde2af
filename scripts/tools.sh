#!/usr/bin/env bash
# Looks for the tools that are named, and says of each that is missing or too old how to get it.
# cargo and rustc are wanted in the version that Cargo.toml names.
set -euo pipefail
cd "$(dirname "$0")/.."

wanted_rust=$(sed -n 's/^rust-version = "\(.*\)"$/\1/p' Cargo.toml)

# Is the first version at least the second?
at_least() {
    [ "$(printf '%s\n%s\n' "$2" "$1" | sort -V | head -n 1)" = "$2" ]
}

missing() { # TOOL
    case $1 in
    rt) echo 'missing: rt. Unpack the Rattle kit and put its folder bin/ on the path' ;;
    *) echo "missing: $1. Install Debian's package $1: apt install $1" ;;
    esac >&2
}

fit=0
for tool in "$@"; do
    command -v "$tool" >/dev/null || { missing "$tool"; fit=1; continue; }
    case $tool in cargo | rustc) ;; *) continue ;; esac
    version=$("$tool" --version | awk '{ print $2 }')
    at_least "$version" "$wanted_rust" && continue
    echo "too old: $tool $version, and $wanted_rust is needed (Debian 13 has it; otherwise rustup)" >&2
    fit=1
done
exit "$fit"
