#!/bin/bash
# That the gate tried each must-fail edit, and refused it because a fact fails, and not merely because a proof no longer fits the code (a name that
# the edit took away), which would show nothing. Whether the fact that fails is the one meant is for a reader of the gate's lines, which show the
# first error of each edit. Reads what `rt ci` or `rt must-fail` printed, from the file named. Prints one line; fails with a line for each edit at fault.
set -euo pipefail
gate=$(realpath "$1")
cd "$(dirname "$0")/.."
edits=0 bad=0
fault() {
    echo "edits: $1"
    bad=1
}
for edit in crates/*/must-fail/*.edit; do
    name=${edit#crates/} name=${name/must-fail\//}
    line=$(grep -F -m 1 "rt: must-fail $name: " "$gate" || true)
    said=${line#"rt: must-fail $name: "}
    case $said in
        "refused, as it must be (only because a proof file names"*) fault "$name changes the shape of the code, and shows nothing" ;;
        "refused, as it must be (only"*) fault "$name: $said" ;;
        "refused, as it must be"*) ;;
        "") fault "$name was not tried" ;;
        *) fault "$name: $said" ;;
    esac
    edits=$((edits + 1))
done
if grep '^rt: ok' "$gate" | grep -Eq ', 0*[1-9][0-9]* bad'; then fault "the gate found bad edits"; fi
[ "$bad" = 0 ] || exit 1
echo "edits: $edits wrong programs tried, none refused merely because its proof no longer fits the code"
