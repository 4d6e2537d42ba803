#!/bin/sh
# sh host/native.sh
#
# Tells whether this processor has an archive of its own to be made. On x86-64 nothing is to be done: the archive that
# rt makes is for it. On another processor there is none: the Rattle kit of today runs on x86-64, and writes for it alone.
# Status 3 there.
set -eu
cd "$(dirname "$0")/.."
. host/sh/common.sh
help_if_asked host/native.sh "$@"

case $(uname -m) in
x86_64) echo "native.sh: nothing to do: on x86-64 the archive is rt's own, $archive" ;;
*) fail 3 "missing: an archive for $(uname -m): the Rattle kit writes for x86-64 alone" ;;
esac
