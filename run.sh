#!/bin/sh
# sh run.sh
#
# Proves and writes the archive, where it does not stand yet, and runs host/examples/station.rs over it: a station in
# small. Status 3, and one line, where a tool is missing.
set -eu
cd "$(dirname "$0")"
. host/sh/common.sh
help_if_asked run.sh "$@"
# cc is what Rust links with
need rt cargo cc awk sha256sum
sh host/sh/archive.sh
cd host
cargo run --release --offline --quiet --example station
