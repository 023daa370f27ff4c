#!/usr/bin/env bash
# Runs the gate, or the command that it is given, in a clean clone with nothing kept, and prints what each crate cost it.
#     bench/gate/run.sh [COMMAND..]
set -eu
top=$(cd "$(dirname "$0")/../.." && pwd)
room=$(mktemp -d)
trap 'rm -rf "$room"' EXIT
git clone -q "$top" "$room/clone"
[ $# -gt 0 ] || set -- .ci/run
cd "$room/clone"
python3 "$top/bench/gate/sample.py" "$room/clone" "$@"
