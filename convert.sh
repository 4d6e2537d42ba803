#!/bin/sh
# sh convert.sh [SHEET]
#
# Converts the sheet in the file given, or on standard input: proves and builds the program `convert`, where that is not
# done yet, and runs it. Standard output is the program's text and nothing else: a report with its bytes, or one line,
# refused=N. Standard error has what rt says while it proves, and why a sheet is refused.
#
# Status
#   0  converted
#   1  refused: the number and its cause in words are on standard error; docs/REFUSALS.md has the cures
#   2  the sheet cannot be read, or the output could not be written whole
#   3  a tool is missing, or the program is not proved; one line says which, before anything is written
set -u

sheet_given=$#
sheet=${1-}
start=$(pwd)
# a search path for folders would have cd print where it went
CDPATH='' cd "$(dirname "$0")" || exit 3
. host/sh/common.sh
help_if_asked convert.sh "$@"
[ $# -le 1 ] || fail 2 "takes one sheet, or none: --help says more"
need rt awk sed sha256sum head od mktemp
find_kit

# Standard input becomes the sheet. A path is meant from where the caller stands.
open_sheet() {
    case $sheet in /*) path=$sheet ;; *) path=$start/$sheet ;; esac
    [ -e "$path" ] || fail 2 "the sheet $sheet is not there"
    [ ! -d "$path" ] || fail 2 "the sheet $sheet is a folder"
    [ -r "$path" ] || fail 2 "the sheet $sheet may not be read"
    exec <"$path"
}

[ "$sheet_given" -eq 0 ] || open_sheet
{ true 3<&0; } 2>/dev/null || fail 2 "standard input is closed"
{ true 3>&1; } 2>/dev/null || fail 2 "standard output is closed"

work=$(mktemp -d) || fail 2 "there is no place for the text: mktemp made no folder"
trap 'rm -rf "$work"' EXIT
trap 'exit 2' HUP INT PIPE TERM

# A longer input is answered as its beginning is: the program reads no more. (proved: cut-alike)
head -c 65642 >"$work/sheet" || fail 2 "the sheet could not be read"

# rt builds a program where it runs it. Here it runs on no sheet, whose refusal is no part of the text.
prove() {
    sources=$(sources)
    is_made "$program" "$sources" && return
    (cd crates/convert && rt run) </dev/null >"$work/none" || fail 3 "the program convert is not proved: rt says why"
    [ "$(sources)" = "$sources" ] || fail 3 "a file under crates changed meanwhile: run it again"
    mark_made "$program" "$sources"
}

# The program writes into a pipe. Where the file does not take what comes from it, that is told by the status of cat.
run_program() {
    ended=$({
        {
            sh host/program.sh <"$work/sheet"
            echo "program $?" >&3
        } | cat >"$work/text" || echo "cat $?" >&3
    } 3>&1)
    case $ended in
    "program 0") ;;
    *cat*) fail 2 "there is no space for the text in a temporary file" ;;
    *) fail 3 "the program was not run to its end: ${ended#program } is its status" ;;
    esac
}

# The cause in words, or in general ones.
why() { # NUMBER
    words=$({
        modes
        LC_ALL=C od -A n -t u1 -v "$work/sheet"
    } | LC_ALL=C awk -v number="$1" -f host/sh/refused.awk 2>/dev/null)
    printf '%s\n' "${words:-the cause was not found in the sheet; docs/REFUSALS.md has the causes of $1}"
}

prove
run_program
# a report begins with mode=, and its lines have no NUL
IFS= read -r first <"$work/text" || first=
case $first in
mode=* | refused=*) cat "$work/text" || fail 2 "the output could not be written whole" ;;
*) fail 3 "the program wrote neither a report nor a refusal" ;;
esac
case $first in
refused=*) fail 1 "refused, ${first#refused=}: $(why "${first#refused=}")" ;;
esac
