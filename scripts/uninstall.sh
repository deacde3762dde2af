#!/usr/bin/env bash
# Removes what install.sh installed under a prefix, by the list that it left there: the files, and those
# of the folders that it made which are empty then. Usage: uninstall.sh DESTDIR PREFIX
set -euo pipefail

destdir=${1%/} prefix=${2%/}
list=$destdir$prefix/share/settlement-day/installed
[ -f "$list" ] || { echo "nothing is installed under $destdir$prefix: there is no $list" >&2; exit 1; }

mapfile -t lines < <(tac "$list")
files=0
for line in "${lines[@]}"; do
    kind=${line%% *} path=${line#* }
    case $kind:$path/ in
    *:*/../*) echo "$list names $path: it is not the list that was left" >&2; exit 1 ;;
    f:"$prefix"/*)
        rm -f -- "$destdir$path"
        files=$((files + 1))
        ;;
    d:/*) rmdir --ignore-fail-on-non-empty -- "$destdir$path" ;;
    *) echo "$list names $path: it is not the list that was left" >&2; exit 1 ;;
    esac
done
echo "uninstalled: $((files - 1)) files under $destdir$prefix"
