#!/usr/bin/env bash
# Makes the shared library out of the archive, with the other two names that a linker and a loader look
# for: they are the same file, since rt proves nothing in a folder with a symbolic link. It gives the
# functions for hosts and nothing else, needs the C library alone, and has no text that the loader would
# have to change. Usage: share.sh DIRECTORY/libNAME.so.MAJOR.MINOR LIBRARY
set -euo pipefail
cd "$(dirname "$0")/.."
scripts/tools.sh gcc

shared=$1 library=$2
directory=$(dirname "$shared")
soname=$(basename "${shared%.*}")

rm -f "$directory"/lib*.so*
gcc -shared -o "$shared" -Wl,-soname,"$soname" -Wl,-z,defs -Wl,-z,text -Wl,-z,now -Wl,-z,noexecstack \
    -Wl,--version-script=<(printf '{ global: day_*; entry_*; local: *; };\n') \
    -Wl,--whole-archive "$library" -Wl,--no-whole-archive
ln "$shared" "$directory/$soname"
ln "$shared" "$directory/${soname%.*}"
echo "$shared"
