#!/bin/sh
# Runs the program. Builds and proves it first where it is not built yet, or where a source is newer.
# `vw rule N` prints what the rule that a `malformed` line names says.
here=$(dirname "$0")
program=$here/crates/vw_app/out/vw_app
if [ "$#" -eq 2 ] && [ "$1" = rule ]; then
    grep "^| $2 |" "$here/docs/RULES.md" || { echo "vw: no rule $2" >&2; exit 3; }
    exit 0
fi
if [ ! -x "$program" ] || [ -n "$(find "$here/crates" -name out -prune -o -newer "$program" \( -name '*.rt' -o -name '*.antt' \) -print | head -n 1)" ]; then
    "$here/tools/build" || exit 125
fi
exec "$program" "$@"
