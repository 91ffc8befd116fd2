#!/bin/sh
# Runs mode `inline` over a capture of 32 MiB less 8 KiB, in frames of 1,042 bytes that all pass, and prints the most memory that the program
# had at once. Fails where that is above 110 MiB. Wants /usr/bin/time and python3.
top=$(cd "$(dirname "$0")/.." && pwd) || exit 1
if [ ! -x /usr/bin/time ] || ! command -v python3 >/dev/null 2>&1; then
    echo "skipped: /usr/bin/time or python3 is missing"
    exit 0
fi
"$top/bricks" >/dev/null 2>&1
program="$top/crates/bricks_main/out/bricks_main"
if [ ! -x "$program" ]; then
    echo "the program could not be built: run ./bricks in $top" >&2
    exit 1
fi
folder=$(mktemp -d) || exit 1
trap 'rm -rf "$folder"' EXIT
cd "$folder" || exit 1

python3 "$top/tools/make_records.py" 31700 in.pcap c.toml '{ stage = "ttl" }' 1000 || exit 1
/usr/bin/time -f %M -o peak "$program" inline c.toml . >report || exit 1
kib=$(cat peak)
echo "capture $(stat -c %s in.pcap) bytes, output $(stat -c %s a.g.pcap) bytes, peak $((kib / 1024)) MiB"
[ "$kib" -le 112640 ]
