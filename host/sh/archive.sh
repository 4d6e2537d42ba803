#!/bin/sh
# sh host/sh/archive.sh
#
# Proves and writes the archive that hosts link, for x86-64: target/staticlib/librumchivoat.a. It is a copy of what rt makes
# of the crate rumchivoat_c, under the name by which hosts know it. What stands there and was made from the crates as they
# are is left alone. Status 3 where a tool is missing; rt's own, not 0, where something is not proved.
set -eu
cd "$(dirname "$0")/../.."
. host/sh/common.sh
help_if_asked host/sh/archive.sh "$@"
need rt awk sha256sum
find_kit

sources=$(sources)
if is_made "$archive" "$sources"; then
    echo "archive.sh: $archive stands, proved from these crates"
else
    (cd crates/rumchivoat_c && rt lib) </dev/null
    [ "$(sources)" = "$sources" ] || fail 1 "a file under crates changed meanwhile: run it again"
    mkdir -p "$(dirname "$archive")"
    cp crates/rumchivoat_c/out/librumchivoat_c.a "$archive"
    mark_made "$archive" "$sources"
fi
