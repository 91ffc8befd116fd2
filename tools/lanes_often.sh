#!/bin/sh
# Runs examples/lanes over lanes with 1, 2, 4 and 16 workers in turn, 200 times or as often as is said, and compares every file and the report
# with those of a run without lanes: tools/lanes_often.sh [TIMES]
cd "$(dirname "$0")/.." || exit 1
out=$(mktemp -d) || exit 1
trap 'rm -rf "$out"' EXIT
times=${1:-200}

mkdir "$out/inline" || exit 1
./bricks inline examples/lanes/chains.toml "$out/inline" >"$out/inline/report" || exit 1
run=0
other=0
while [ "$run" -lt "$times" ]; do
    for workers in 1 2 4 16; do
        [ "$run" -lt "$times" ] || break
        rm -rf "$out/lanes"
        mkdir "$out/lanes" || exit 1
        ./bricks --workers "$workers" run examples/lanes/chains.toml "$out/lanes" >"$out/lanes/report"
        diff -r "$out/inline" "$out/lanes" || other=$((other + 1))
        run=$((run + 1))
    done
done
echo "runs over lanes: $((run - other)) as without them, $other not"
[ "$other" -eq 0 ] && [ "$run" -gt 0 ]
