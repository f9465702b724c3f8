#!/bin/sh
# cargo_home.sh FOLDER: makes it a CARGO_HOME whose crates come from Debian's packages (librust-..-dev), so that cargo needs no
# network. Cargo looks for a crate's optional dependencies, too.
set -eu
registry=${CARGO_REGISTRY:-/usr/share/cargo/registry}
ls -d "$registry"/geo-types-* > /dev/null 2>&1 || { echo "no crate geo-types in $registry: tests/needs.sh installs it"; exit 1; }
mkdir -p "$1"
printf '[source.crates-io]\nreplace-with = "debian"\n[source.debian]\ndirectory = "%s"\n' "$registry" > "$1/config.toml"
