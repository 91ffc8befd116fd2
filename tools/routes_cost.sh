#!/bin/sh
# Counts what tables of routes cost. By the program `route_growth`: the instructions of one address among 4,096 rows, at most 60, and those of
# a table of 1,000, 2,000 and 4,000 rows, each step at most 2.3 times. By mode `check`: the instructions of a chain file with a route of 1,000,
# 2,000 and 4,000 rows, each step at most 2.3 times; and how much more memory a chain file of 1 MiB takes at once where its routes stand in
# tables of 64 rows, which have cells, than where they stand in tables of 63, which have none: at most 80 MiB. Wants valgrind, /usr/bin/time
# and python3.
top=$(cd "$(dirname "$0")/.." && pwd) || exit 1
for tool in valgrind /usr/bin/time python3; do
    if ! command -v $tool >/dev/null 2>&1; then
        echo "skipped: $tool is missing"
        exit 0
    fi
done
"$top/bricks" >/dev/null 2>&1
program="$top/crates/bricks_main/out/bricks_main"
growth="$top/crates/route_growth/out/route_growth"
if [ ! -x "$growth" ]; then
    (cd "$top/crates/route_growth" && rt run -- 64 1) >/dev/null 2>&1
fi
for built in "$program" "$growth"; do
    if [ ! -x "$built" ]; then
        echo "$built could not be built: run ./bricks in $top" >&2
        exit 1
    fi
done
folder=$(mktemp -d) || exit 1
trap 'rm -rf "$folder"' EXIT
cd "$folder" || exit 1
failed=0

# the instructions of a command
instructions() {
    valgrind --tool=callgrind --callgrind-out-file=/dev/null "$@" 2>&1 >/dev/null | sed -n 's/.*Collected : //p'
}

# a chain file of so many tables of so many rows, spread over 16 tenants or over one
chains() {
    python3 - "$@" <<'END'
import sys

tables, rows, tenants = (int(word) for word in sys.argv[1:4])
lists = [[] for _ in range(tenants)]
number = 0
for table in range(tables):
    wanted = []
    for _ in range(rows):
        # each row has the 65,536 addresses round it to itself in its table
        high, low = number % 65536, number // 65536
        wanted.append('{to="%d.%d.%d.1/32",via="02:00:00:00:00:01"}' % (high // 256, high % 256, low))
        number += 1
    lists[table % tenants].append('{stage="route",mac="02:00:00:00:00:02",route=[%s]}' % ",".join(wanted))
print("version = 2")
for tenant in range(tenants):
    print('[[tenant]]\nname = "t%d"\ncapture = "t%d.pcap"\nstages = [%s]' % (tenant, tenant, ",".join(lists[tenant])))
    print('[[tenant.group]]\nname = "g"')
END
}

few=$(instructions "$growth" 4096 100000)
many=$(instructions "$growth" 4096 200000)
each=$(((many - few) / 100000))
echo "an address among 4,096 rows: $each instructions"
[ "$each" -le 60 ] || failed=1

before=0
for rows in 1000 2000 4000; do
    now=$(instructions "$growth" "$rows" 0)
    echo "a table of $rows rows: $now instructions"
    [ "$before" -eq 0 ] || [ $((now * 10)) -le $((before * 23)) ] || failed=1
    before=$now
done

before=0
for rows in 1000 2000 4000; do
    chains 1 "$rows" 1 >c.toml
    "$program" check c.toml . >report || exit 1
    now=$(instructions "$program" check c.toml .)
    echo "a chain file with a route of $rows rows: $now instructions"
    [ "$before" -eq 0 ] || [ $((now * 10)) -le $((before * 23)) ] || failed=1
    before=$now
done

# the most memory that the program has at once, in KiB
peak() {
    /usr/bin/time -f %M -o peak "$program" check c.toml . >report || exit 1
    cat peak
}

chains 360 64 16 >c.toml
cells=$(peak) || exit 1
size=$(stat -c %s c.toml)
chains 366 63 16 >c.toml
scans=$(peak) || exit 1
echo "a chain file of $size bytes: $((cells / 1024)) MiB at once, $(((cells - scans) / 1024)) of them for the cells of 360 tables"
[ $((cells - scans)) -le 81920 ] || failed=1
exit $failed
