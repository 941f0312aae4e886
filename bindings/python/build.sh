#!/usr/bin/env bash
# Makes a wheel of the Python package, which brings libpaseto.so with it, without a network.
#
#   bash bindings/python/build.sh [FOLDER [PREFIX]]
#
# FOLDER is build/wheels where none is given, and PREFIX build, where `bash build.sh` installed the library. The tag of the
# wheel says with which C library it runs. Install it by pip: `pip install --no-index FOLDER/paseto_proved-*.whl`.
set -euo pipefail
here=$(cd "$(dirname "$0")" && pwd)
root=$(cd "$here/../.." && pwd)
folder=${1:-$root/build/wheels}
library=${2:-$root/build}/lib/libpaseto.so
if [ ! -e "$library" ]; then
    echo "There is no $library: bash build.sh makes it" >&2
    exit 1
fi
if ! command -v objdump >/dev/null; then
    echo 'There is no objdump. On Debian: apt-get install binutils' >&2
    exit 1
fi
python3 "$here/wheel.py" "$library" "$folder"
