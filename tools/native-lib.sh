#!/bin/sh
# native-lib.sh: makes target/native/libnyolifuwe.a, which is what `rt lib` writes, anew only where something changed.
set -eu
cd "$(dirname "$0")/.."
. tools/usage.sh
numbers tools/native-lib.sh 0 "$@"
if ! command -v rt >/dev/null; then
    echo "tools/native-lib.sh: rt, the command of the Rattle kit, is not on the path" >&2
    exit 1
fi
name=nyolifuwe out=target/native

# What the archive is made from, as one number.
sources() {
    rt version
    cat crates.txt tools/native-lib.sh
    find crates \( -name must-fail -o -name out \) -prune -o -type f \( -name '*.rt' -o -name '*.antt' \) -print |
        LC_ALL=C sort | xargs sha256sum
}

mkdir -p "$out"
now=$(sources | sha256sum)
if [ -f "$out/lib$name.a" ] && [ "$(cat "$out/stamp" 2>/dev/null)" = "$now" ]; then exit 0; fi
(cd "crates/$name" && rt lib) >&2
cp "crates/$name/out/lib$name.a" "$out/"
echo "$now" >"$out/stamp"
