#!/usr/bin/env python3
"""Connections of which one contains a text, over the cut between two segments that come in the wrong order. Writes a.pcap, and what the chain
file makes of it."""
import os
import sys

os.chdir(os.path.dirname(os.path.abspath(__file__)))
sys.path.insert(0, "..")
from packets import ACK, SYN, at, capture, line, tcp, udp, write


def segment(sequence, flags, data=b"", host="10.0.0.1"):
    return tcp(host, 2000, "198.51.100.2", 80, sequence, flags, data)


def answer(sequence, flags, data=b""):
    return tcp("198.51.100.2", 80, "10.0.0.1", 2000, sequence, flags, data)


records = [
    at(0, segment(99, SYN)),
    at(1, segment(105, ACK, b"ackyy")),
    # the bytes in order are now xxattackyy
    at(2, segment(100, ACK, b"xxatt")),
    # from here on no segment of the connection passes, whatever its direction
    at(3, segment(110, ACK, b"zz")),
    at(4, answer(500, SYN | ACK)),
    # another connection has the parts of the text, and not the text
    at(5, segment(99, SYN, host="10.0.0.3")),
    at(6, segment(100, ACK, b"atta", host="10.0.0.3")),
    at(7, segment(105, ACK, b"ck", host="10.0.0.3")),
    # a datagram is no segment
    at(8, udp("10.0.0.1", 2000, "198.51.100.2", 53, b"attack")),
]
write("a.pcap", capture(records))
passed = [records[k] for k in (0, 1, 5, 6, 7, 8)]
write("expected/a.g.pcap", capture(passed))
write("expected/a.refused", "")
write("expected/report", line("a", len(records), [("g", len(passed))], Filter=3))
