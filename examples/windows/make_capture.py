#!/usr/bin/env python3
"""Segments that come out of order and overlap, and leave as windows of 64 bytes. Writes a.pcap, and what the chain file makes of it."""
import os
import sys

os.chdir(os.path.dirname(os.path.abspath(__file__)))
sys.path.insert(0, "..")
from packets import ACK, PSH, SYN, at, capture, line, tcp, write


def segment(sequence, flags, data=b"", acknowledgement=7):
    return tcp("10.0.0.1", 2000, "198.51.100.2", 80, sequence, flags, data, acknowledgement)


records = [
    at(0, segment(1000, SYN)),
    at(1, segment(1101, ACK, b"A" * 60, 71)),
    at(2, segment(1001, ACK, b"B" * 60, 72)),
    at(3, segment(1051, ACK, b"C" * 70, 73)),
]
write("a.pcap", capture(records))
# Of each byte the segment that came first decides: 60 bytes B, then 40 bytes C, then 60 bytes A. The last segment fills the gap, and so
# the windows have its time and its acknowledgement; it was the last one that counted, and so has the rest.
stream = b"B" * 60 + b"C" * 40 + b"A" * 60
write("expected/a.g.pcap", capture([
    records[0],
    at(3, segment(1001, PSH | ACK, stream[:64], 73)),
    at(3, segment(1065, PSH | ACK, stream[64:128], 73)),
    at(3, segment(1129, PSH | ACK, stream[128:], 73)),
]))
write("expected/a.refused", "")
write("expected/report", line("a", 4, [("g", 4)]))
