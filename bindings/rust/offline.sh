#!/usr/bin/env bash
# Writes the configuration of a Cargo home that takes crates from Debian's packages of them, in place of a registry:
#
#   bindings/rust/offline.sh FOLDER
#
# Then CARGO_HOME=FOLDER cargo builds without network.
set -euo pipefail
registry=/usr/share/cargo/registry
for crate in erased-serde serde serde_json time; do
    if ! compgen -G "$registry/$crate-[0-9]*" >/dev/null; then
        echo "There is no $registry/$crate-*. On Debian: apt-get install librust-erased-serde-dev librust-serde-json-dev librust-time-dev" >&2
        exit 1
    fi
done
mkdir -p "$1"
cat >"$1/config.toml" <<END
[source.crates-io]
replace-with = "debian"

[source.debian]
directory = "$registry"

[net]
offline = true
END
