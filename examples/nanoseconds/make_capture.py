#!/usr/bin/env python3
"""A big-endian capture with nanoseconds. Writes a.pcap, and what the chain file makes of it."""
import os
import sys

os.chdir(os.path.dirname(os.path.abspath(__file__)))
sys.path.insert(0, "..")
from packets import SYN, capture, line, tcp, udp, write


def question(ttl):
    return udp("10.0.0.1", 1000, "10.1.2.3", 53, b"ping", ttl=ttl)


write("a.pcap", capture([
    (1700000000, 123456789, question(64)),
    (1700000000, 223456789, tcp("10.0.0.1", 1000, "10.1.2.3", 80, 1, SYN)),
    (1700000001, 999999999, question(1)),
], order=">", nanoseconds=True))
# The output is little-endian, and its fractions are still nanoseconds.
write("expected/a.g.pcap", capture([(1700000000, 123456789, question(63))], nanoseconds=True))
write("expected/a.refused", "")
write("expected/report", line("a", 3, [("g", 1)], Ttl=1, Filter=1))
