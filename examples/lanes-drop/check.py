#!/usr/bin/env python3
"""Checks what a run of this chain file left in a folder: check.py OUT, where OUT/report is what it printed.

Which records are refused depends on how the threads ran. But each record is accepted, refused or too long; the refused file has the
refused ones, rising, each behind at least as many accepted ones as there are buffers; and the output has the accepted ones, in order.
"""
import os
import re
import struct
import sys

HERE = os.path.dirname(os.path.abspath(__file__))
BUFFERS = 2
BYTES = 128


def records(path):
    with open(path, "rb") as file:
        data = file.read()
    place, found = 24, []
    while place < len(data):
        length = struct.unpack("<I", data[place + 8:place + 12])[0]
        found.append(data[place:place + 16 + length])
        place += 16 + length
    return found


out = sys.argv[1]
every = records(os.path.join(HERE, "..", "lanes", "c.pcap"))
big = [k for k, record in enumerate(every) if len(record) - 16 > BYTES]
with open(os.path.join(out, "c.refused"), encoding="ascii") as file:
    refused = [int(line) for line in file]
with open(os.path.join(out, "report"), encoding="ascii") as file:
    report = file.read()
accepted = [k for k in range(len(every)) if k not in big and k not in refused]

assert refused == sorted(set(refused)) and not set(refused) & set(big), "the refused records"
assert all(sum(n < k for n in accepted) >= BUFFERS for k in refused), "a record that was refused too early"
assert records(os.path.join(out, "c.g.pcap")) == [every[k] for k in accepted], "the output"
counts = re.match(r"c done records=(\d+) accepted=(\d+) refused=(\d+) Big=(\d+) .* /g=(\d+)\n$", report)
assert counts and [int(n) for n in counts.groups()] == [len(every), len(accepted), len(refused), len(big), len(accepted)], report
