#!/usr/bin/env bash
# Tries the edits that the gate leaves out for time, of all crates or of those that are named: the prover must refuse each.
#     bench/edits/run.sh [CRATE..]
set -eu
top=$(cd "$(dirname "$0")/../.." && pwd)
room=$(mktemp -d)
trap 'rm -rf "$room"' EXIT
git clone -q "$top" "$room/clone"
cd "$room/clone"
[ $# -gt 0 ] || set -- $(cd bench/edits && ls -d dd_*)
for crate in "$@"; do
    mkdir -p "crates/$crate/must-fail"
    cp "bench/edits/$crate"/*.edit "crates/$crate/must-fail/"
done
rt must-fail "$@"
