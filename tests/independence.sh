#!/bin/bash
# That planners and marker are independent: no crate of the one depends on a crate of the other, directly or through others.
# Reads crates.txt, or the file named. Prints one line; fails with a line for each such dependency, or if a crate is not listed.
set -euo pipefail
cd "$(dirname "$0")/.."
awk '
function follow(crate, way,    i, n, deps, at) {
    n = split(uses[crate], deps, " ")
    for (i = 1; i <= n; i++) {
        at = deps[i]
        if (at in part && part[at] != part[start]) {
            print "independence: " way " -> " at ": a crate of the " part[start] " uses one of the " part[at]
            bad = 1
        }
        if (at in uses && !((start, at) in passed)) {
            passed[start, at] = 1
            follow(at, way " -> " at)
        }
    }
}
BEGIN {
    planners = split("links staircase needs starts selection ranking placement planner plan_text", names, " ")
    for (i = 1; i <= planners; i++) part[names[i]] = "planners"
    markers = split("runs sorting changes validator mark_text", names, " ")
    for (i = 1; i <= markers; i++) part[names[i]] = "marker"
}
{ sub(/#.*/, "") }
NF {
    crate = $1
    sub(/:$/, "", crate)
    $1 = ""
    uses[crate] = $0
}
END {
    for (start in part) {
        if (start in uses) follow(start, start)
        else {
            print "independence: no crate " start " is listed"
            bad = 1
        }
    }
    if (bad) exit 1
    print "independence: " planners " crates of the planners and " markers " of the marker, neither part uses the other"
}' "${1:-crates.txt}"
