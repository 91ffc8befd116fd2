#!/bin/sh
# Counts the instructions of the program `stream_growth`, which leaves gaps in a stream and closes them from the front one by one, for
# more and more gaps; and of the same with a scan of the stream for a text. Fails where twice the gaps take more than 2.5 times the
# instructions. Wants valgrind.
top=$(cd "$(dirname "$0")/.." && pwd) || exit 1
if ! command -v valgrind >/dev/null 2>&1; then
    echo "skipped: valgrind is missing"
    exit 0
fi
cd "$top/crates/stream_growth" || exit 1
program=out/stream_growth
if [ ! -x "$program" ]; then
    rt run -- 1000 >/dev/null 2>&1
fi
if [ ! -x "$program" ]; then
    echo "stream_growth could not be built: run 'rt run -- 1000' in $PWD" >&2
    exit 1
fi

# the instructions for these words
instructions() {
    valgrind --tool=callgrind --callgrind-out-file=/dev/null "$program" "$@" 2>&1 | sed -n 's/.*Collected : //p'
}

for what in "" scan; do
    before=0
    for gaps in 25000 50000 100000 200000; do
        # the word is left out where there is none
        now=$(instructions "$gaps" $what)
        if [ -z "$now" ]; then
            echo "stream_growth $gaps $what gave no count" >&2
            exit 1
        fi
        echo "$gaps gaps${what:+, with a $what}: $now instructions"
        if [ "$before" -gt 0 ] && [ $((now * 2)) -gt $((before * 5)) ]; then
            echo "twice the gaps took more than 2.5 times the instructions" >&2
            exit 1
        fi
        before=$now
    done
done
