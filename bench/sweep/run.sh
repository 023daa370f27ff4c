#!/usr/bin/env bash
# Sweeps several hundred scripts, stops the sweep in its midst, and goes on: says how long the whole took, and that nothing is lost.
cd "$(dirname "$0")/../.." || exit 1
./diddy run < /dev/null > /dev/null || exit 1
room=$(mktemp -d)
trap 'rm -rf "$room"' EXIT
python3 bench/sweep/scripts.py "$room/scripts"
timeout 1 tools/sweep "$room/scripts" "$room/outputs" > /dev/null
echo "$(find "$room/outputs" -name '*.output' | wc -l) outputs stood when it was stopped"
time tools/sweep "$room/scripts" "$room/outputs" > "$room/table"
cut -f 2 "$room/table" | cut -d ' ' -f 1 | sort | uniq -c
