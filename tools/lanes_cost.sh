#!/bin/sh
# Counts the instructions that mode `run` with one worker takes a record beside those of mode `inline`, over 20,000 records of 64 bytes, and
# fails where they are more than 1.6 times as many. Then it times three tenants of 60,000 records each, inline and with one to four workers,
# for `ttl` and `only`, which do least for a record, and for a firewall of 256 rules before a route of 64 rows, and fails where four workers
# take longer than inline at the latter. Wants valgrind, python3, and four processors that do nothing else.
top=$(cd "$(dirname "$0")/.." && pwd) || exit 1
for tool in valgrind python3; do
    if ! command -v $tool >/dev/null 2>&1; then
        echo "skipped: $tool is missing"
        exit 0
    fi
done
"$top/bricks" >/dev/null 2>&1
program="$top/crates/bricks_main/out/bricks_main"
if [ ! -x "$program" ]; then
    echo "the program could not be built: run ./bricks in $top" >&2
    exit 1
fi
folder=$(mktemp -d) || exit 1
trap 'rm -rf "$folder"' EXIT
cd "$folder" || exit 1
stages='{ stage = "ttl" }, { stage = "only", match = { proto = "udp" } }'

# the instructions of a run over so many records in this mode
instructions() {
    python3 "$top/tools/make_records.py" "$1" in.pcap c.toml "$stages" || exit 1
    valgrind --tool=callgrind --callgrind-out-file=/dev/null "$program" "$2" c.toml . 2>&1 >/dev/null | sed -n 's/.*Collected : //p'
}

each() {
    none=$(instructions 0 "$1")
    some=$(instructions 20000 "$1")
    if [ -z "$none" ] || [ -z "$some" ]; then
        echo "$1: no count" >&2
        exit 1
    fi
    echo $(((some - none) / 20000))
}

inline=$(each inline) || exit 1
run=$(each run) || exit 1
echo "inline: $inline instructions a record; run with one worker: $run"

# a chain file of three tenants with these stages: the stages, the name of the file
three_tenants() {
    mkdir -p many
    rm -f many/tenants
    for tenant in a b c; do
        python3 "$top/tools/make_records.py" 60000 "many/$tenant.pcap" "many/$tenant.toml" "$1" || exit 1
        sed -e "s/name = \"a\"/name = \"$tenant\"/" -e '/^version/d' "many/$tenant.toml" >>many/tenants
    done
    { echo "version = 1"; cat many/tenants; } >"$2"
}

three_tenants "$stages" least.toml
three_tenants full full.toml
[ $((run * 10)) -le $((inline * 16)) ] || exit 1
python3 - "$program" <<'END'
import os
import subprocess
import sys
import time


def seconds(chains, words):
    best = None
    for _ in range(15):
        os.makedirs("out", exist_ok=True)
        start = time.monotonic()
        subprocess.run([sys.argv[1], *words, chains, "out"], check=True, stdout=subprocess.DEVNULL)
        took = time.monotonic() - start
        best = took if best is None else min(best, took)
    return best


def ratio(chains, what):
    inline = seconds(chains, ["inline"])
    took = [seconds(chains, ["--workers", str(n), "run"]) for n in (1, 2, 3, 4)]
    print("three tenants of 60,000 records, %s: inline %.3f s; 1 to 4 workers %s s; ratio with four %.2f"
          % (what, inline, ", ".join("%.3f" % t for t in took), took[3] / inline))
    return took[3] / inline


ratio("least.toml", "ttl, only")
sys.exit(0 if ratio("full.toml", "firewall of 256 rules, route of 64 rows") < 1 else 1)
END
