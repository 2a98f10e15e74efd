#!/bin/sh
# Proves and builds the campaign program, and runs it: on the table that ships with it, or with the arguments given.
set -eu
home=$(cd "$(dirname "$0")/../crates/campaign" && pwd)
sample="$home/data/screw-1204.txt"
log=$(mktemp)
trap 'rm -f "$log"' EXIT
# rt run leaves the program in out/; this first run, on the sample, shows that it is there.
if ! (cd "$home" && rt run -- "$sample") > "$log" 2>&1; then
    cat "$log" >&2
    exit 1
fi
if [ $# -eq 0 ]; then
    set -- "$sample"
fi
"$home/out/campaign" "$@"
