#!/bin/sh
# Counts the instructions that mode `inline` takes a record, for 20,000 and 200,000 records of 64 bytes in 500 flows: for `ttl` and `only`,
# for a firewall of 16 rules before a route of 64 rows, and for a row of `ttl`, `only`, a firewall of 8 rules and a route of 16 rows. Fails
# where a count is above its bar, or where a record of the longer capture takes more than 1.03 times the instructions. Wants valgrind and
# python3.
top=$(cd "$(dirname "$0")/.." && pwd) || exit 1
for tool in valgrind python3; do
    if ! command -v $tool >/dev/null 2>&1; then
        echo "skipped: $tool is missing"
        exit 0
    fi
done
"$top/bricks" >/dev/null 2>&1
program="$top/crates/bricks_main/out/bricks_main"
if [ ! -x "$program" ]; then
    echo "the program could not be built: run ./bricks in $top" >&2
    exit 1
fi
folder=$(mktemp -d) || exit 1
trap 'rm -rf "$folder"' EXIT
cd "$folder" || exit 1

# the instructions of a run over so many records with these stages
instructions() {
    python3 "$top/tools/make_records.py" "$1" in.pcap c.toml "$2" || exit 1
    valgrind --tool=callgrind --callgrind-out-file=/dev/null "$program" inline c.toml . 2>&1 >/dev/null | sed -n 's/.*Collected : //p'
}

failed=0
# stages, what they are called, and their bar
measure() {
    none=$(instructions 0 "$1")
    some=$(instructions 20000 "$1")
    many=$(instructions 200000 "$1")
    if [ -z "$none" ] || [ -z "$some" ] || [ -z "$many" ]; then
        echo "$2: no count" >&2
        exit 1
    fi
    each=$(((some - none) / 20000))
    later=$(((many - none) / 200000))
    echo "$2: $each instructions a record, $later in a capture ten times as long"
    if [ "$each" -gt "$3" ] || [ $((later * 100)) -gt $((each * 103)) ]; then
        echo "$2: more than $3, or more in the longer capture" >&2
        failed=1
    fi
}

rules=""
for port in 1 2 3 4 5 6 7 8 9 10 11 12 13 14 15; do
    rules="$rules{ verdict = \"deny\", match = { dport = $port } }, "
done
rules="$rules{ verdict = \"allow\", match = { proto = \"udp\" } }"
routes=""
for third in $(seq 0 63); do
    routes="$routes{ to = \"10.1.$third.0/24\", via = \"0c:00:00:00:00:01\" }, "
done
measure '{ stage = "ttl" }, { stage = "only", match = { proto = "udp" } }' "ttl, only" 820
measure "{ stage = \"firewall\", default = \"deny\", rule = [$rules] }, { stage = \"route\", mac = \"0a:00:00:00:00:0b\", route = [$routes] }" "firewall, route" 1300
measure row "ttl, only, firewall of 8 rules, route of 16 rows" 1450
exit $failed
