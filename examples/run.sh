#!/bin/sh
# Runs the program on each example, without lanes and over lanes with several numbers of workers, and wants just the files, the report and
# the status that the example's folder `expected` has. Those were written by the example's make_capture.py from the formats, and not by
# the program. Of examples/lanes-drop, where the threads decide which records are refused, check.py checks what does not depend on them.
top=$(cd "$(dirname "$0")/.." && pwd) || exit 1
cd "$top" || exit 1
out=$(mktemp -d) || exit 1
trap 'rm -rf "$out"' EXIT

passed=0
failed=0

# example EXPECTED WORD..: the example of this folder, by the words before the chain file
example() {
    expected=$1
    shift
    folder=$(dirname "$expected")
    name=$(basename "$folder")
    rm -rf "${out:?}/$name"
    mkdir "$out/$name" || exit 1
    ./bricks "$@" "$folder/chains.toml" "$out/$name" >"$out/$name/report"
    status=$?
    wanted=0
    if [ -f "$expected/status" ]; then
        wanted=$(cat "$expected/status")
        cp "$expected/status" "$out/$name/status"
    fi
    if [ "$status" -eq "$wanted" ] && diff -r "$expected" "$out/$name"; then
        passed=$((passed + 1))
    else
        echo "example $name, $*: status $status, or other files or another report than it should have"
        failed=$((failed + 1))
    fi
}

for expected in examples/*/expected; do
    [ -f "$(dirname "$expected")/chains.toml" ] || continue
    example "$expected" inline
    for workers in 1 4 16; do
        example "$expected" --workers "$workers" run
    done
done

if command -v python3 >/dev/null 2>&1; then
    for workers in 1 4 16; do
        mkdir "$out/drop$workers" || exit 1
        ./bricks --workers "$workers" run examples/lanes-drop/chains.toml "$out/drop$workers" >"$out/drop$workers/report"
        if [ $? -eq 0 ] && examples/lanes-drop/check.py "$out/drop$workers"; then
            passed=$((passed + 1))
        else
            echo "example lanes-drop, $workers workers: not what every run of it leaves"
            failed=$((failed + 1))
        fi
    done
fi

# six tenants in one run, and each in a run of its own
if command -v python3 >/dev/null 2>&1; then
    if examples/spread/run.sh >/dev/null; then
        passed=$((passed + 1))
    else
        echo "example spread: a tenant in a run of its own leaves other files than among others"
        failed=$((failed + 1))
    fi
fi

# the example of the library
program="$top/crates/library_example/out/library_example"
[ -x "$program" ] || (cd crates/library_example && rt run >/dev/null 2>&1)
mkdir "$out/library" && cp examples/library/in.pcap "$out/library" || exit 1
(cd "$out/library" && "$program" >report && rm in.pcap)
if diff -r examples/library/expected "$out/library"; then
    passed=$((passed + 1))
else
    echo "example library: other files or another text than it should have"
    failed=$((failed + 1))
fi
echo "examples: $passed as they should be, $failed not"
[ "$failed" -eq 0 ]
