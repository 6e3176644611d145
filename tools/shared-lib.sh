#!/bin/sh
# shared-lib.sh: makes target/native/libnyolifuwe.so, which Python loads, of the archive, anew only where that changed. CC
# names another compiler.
set -eu
cd "$(dirname "$0")/.."
. tools/usage.sh
numbers tools/shared-lib.sh 0 "$@"
tools/native-lib.sh
archive=target/native/libnyolifuwe.a library=target/native/libnyolifuwe.so
if [ ! -f "$library" ] || [ -n "$(find "$archive" -newer "$library")" ]; then
    "${CC:-cc}" -shared -Wl,--whole-archive "$archive" -Wl,--no-whole-archive -o "$library.$$"
    mv "$library.$$" "$library"
fi
touch "$library" # newer than every source: ./nyo looks at that
