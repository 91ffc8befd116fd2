#!/bin/sh
# Counts the instructions that mode `inline` takes for a segment that closes a gap in a stream, and so makes 4,000, 8,000 and 16,000 windows
# in one step, which go through a stage behind them. Fails where twice as many windows take more than 2.2 times the instructions. Then it
# counts those of a segment that comes in order, of 10 bytes and of 1,460, which make a window. Wants valgrind and python3.
top=$(cd "$(dirname "$0")/.." && pwd) || exit 1
for tool in valgrind python3; do
    if ! command -v $tool >/dev/null 2>&1; then
        echo "skipped: $tool is missing"
        exit 0
    fi
done
"$top/bricks" >/dev/null 2>&1
program="$top/crates/bricks_main/out/bricks_main"
if [ ! -x "$program" ]; then
    echo "the program could not be built: run ./bricks in $top" >&2
    exit 1
fi
folder=$(mktemp -d) || exit 1
trap 'rm -rf "$folder"' EXIT
cd "$folder" || exit 1

# the instructions of a run over a stream of so many windows, closed or not
instructions() {
    python3 "$top/tools/make_gap.py" "$1" in.pcap c.toml $2 || exit 1
    valgrind --tool=callgrind --callgrind-out-file=/dev/null "$program" inline c.toml . 2>&1 >/dev/null | sed -n 's/.*Collected : //p'
}

before=""
for windows in 4000 8000 16000; do
    open=$(instructions $windows)
    closed=$(instructions $windows closed)
    if [ -z "$open" ] || [ -z "$closed" ]; then
        echo "$windows windows: no count" >&2
        exit 1
    fi
    step=$((closed - open))
    echo "$windows windows: $step instructions, $((step / windows)) a window"
    if [ -n "$before" ] && [ $((step * 10)) -gt $((before * 22)) ]; then
        echo "$windows windows: more than 2.2 times those of half as many" >&2
        exit 1
    fi
    before=$step
done

# the instructions of a run over so many segments of so many bytes that come in order
in_order() {
    python3 "$top/tools/make_stream.py" "$1" in.pcap c.toml "$2" || exit 1
    valgrind --tool=callgrind --callgrind-out-file=/dev/null "$program" inline c.toml . 2>&1 >/dev/null | sed -n 's/.*Collected : //p'
}

for bytes in 10 1460; do
    none=$(in_order 0 $bytes)
    some=$(in_order 10000 $bytes)
    if [ -z "$none" ] || [ -z "$some" ]; then
        echo "segments in order: no count" >&2
        exit 1
    fi
    echo "a segment of $bytes bytes in order: $(((some - none) / 10000)) instructions"
done
