#!/usr/bin/env python3
"""Flows that go to a backend, and another one for those that are opened from record 2 on. Writes a.pcap, and what the chain file makes of it."""
import os
import sys

os.chdir(os.path.dirname(os.path.abspath(__file__)))
sys.path.insert(0, "..")
from packets import at, capture, line, udp, write

A = bytes.fromhex("0a0000000000")
B = bytes.fromhex("0b0000000000")


def of_flow(n):
    return udp("10.0.0.%d" % n, 1000, "10.1.2.3", 80, b"data")


write("a.pcap", capture([at(k, of_flow(n)) for k, n in enumerate([1, 2, 3, 1, 3])]))
# The first flow was opened before the change, and keeps its backend.
write("expected/a.g.pcap", capture([at(k, mac + of_flow(n)[6:]) for k, (mac, n) in enumerate([(A, 1), (A, 2), (B, 3), (A, 1), (B, 3)])]))
write("expected/a.refused", "")
write("expected/report", line("a", 5, [("g", 5)]))
