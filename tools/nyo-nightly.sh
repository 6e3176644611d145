#!/bin/sh
# nyo-nightly.sh: tests of nyo that want more than Python: its page in Chromium, a night over a Dask cluster of two
# workers, and nights that are killed while they are under way, which want a machine that is not too busy. What lacks is installed where that can be done (Debian, as root); a test that is skipped says why.
set -eu
cd "$(dirname "$0")/.."
. tools/usage.sh
numbers tools/nyo-nightly.sh 0 "$@"
[ -n "${NYO_LIBRARY:-}" ] || tools/shared-lib.sh

# wanted PACKAGE COMMAND...: installs a package of Debian's where the command fails.
wanted() {
    package=$1
    shift
    if "$@" >/dev/null 2>&1; then return; fi
    if [ "$(id -u)" = 0 ] && command -v apt-get >/dev/null; then
        DEBIAN_FRONTEND=noninteractive apt-get install -y -q --no-install-recommends "$package" >/dev/null || true
    fi
    "$@" >/dev/null 2>&1 || echo "$package is not here and could not be installed"
}

# with_dask: a Python that has Dask; Debian's is in /usr/bin.
with_dask() {
    for python in python3 /usr/bin/python3; do
        if "$python" -c 'import distributed'; then echo "$python" && return; fi
    done
    return 1
}

wanted chromium command -v chromium
wanted python3-distributed with_dask
cd python
python3 -m unittest -v tests.nightly_browser
python3 -m unittest -v tests.nightly_stopped
"$(with_dask 2>/dev/null || echo python3)" -m unittest -v tests.nightly_cluster
