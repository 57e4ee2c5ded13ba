#!/bin/sh
# edits.sh [--anew] [CRATE | CRATE/EDIT ..]: tries edits that the prover must refuse, as the gate does. Without a name those of crates/*/more-edits, for
# which the gate has no time; of a CRATE all that it has, the gate's among them; or one EDIT. In a copy, so that nothing here changes; crates that are
# proved here already are not proved again. An edit that was tried before is not tried again if nothing that it stands on has changed, but with --anew.
# Exit status 1 where an edit was not refused or could not be tried, 2 for a name that is no crate and no edit. Works from any directory.
set -eu
root=$(dirname -- "$(dirname -- "$(readlink -f -- "$0")")")
anew=
if [ "${1:-}" = --anew ]; then
    anew=$1
    shift
fi
work=$(mktemp -d)
trap 'rm -rf -- "$work"' EXIT
trap 'exit 1' HUP INT TERM

# The crates without their edits. What rt check kept of them is found by rt itself, which shares it among the copies on a machine.
mkdir "$work/crates"
cp "$root/crates.txt" "$work"
[ ! -e "$root/HANDLES" ] || cp "$root/HANDLES" "$work"
for folder in "$root"/crates/*; do
    mkdir "$work/crates/${folder##*/}"
    for part in src specs proofs; do
        [ ! -d "$folder/$part" ] || cp -R "$folder/$part" "$work/crates/${folder##*/}"
    done
done

# take CRATE PATTERN: copies its edits of that pattern to where rt looks for them, and notes the crate.
crates=
take() {
    found=
    for edit in "$root/crates/$1"/$2; do
        [ -f "$edit" ] || continue
        found=1
        mkdir -p "$work/crates/$1/must-fail"
        cp "$edit" "$work/crates/$1/must-fail"
    done
    [ -z "$found" ] || crates="$crates $1"
}

if [ $# = 0 ]; then
    for folder in "$root"/crates/*/more-edits; do take "$(basename -- "$(dirname -- "$folder")")" 'more-edits/*.edit'; done
fi
for name; do
    before=$crates
    case $name in
    */*) take "${name%%/*}" "m*/${name#*/}.edit" ;;
    *) take "$name" 'm*/*.edit' ;;
    esac
    [ "$crates" != "$before" ] || { echo "edits.sh: $name is no crate that has edits, and no edit" >&2; exit 2; }
done

cd "$work"
# shellcheck disable=SC2086 # one word for each crate, and none for an empty one
rt must-fail $anew $crates
