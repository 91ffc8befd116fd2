#!/usr/bin/env python3
"""One UDP frame. Writes a.pcap, and what the chain file makes of it."""
import os
import sys

os.chdir(os.path.dirname(os.path.abspath(__file__)))
sys.path.insert(0, "..")
from packets import capture, line, udp, write


def question(ttl):
    return udp("10.0.0.1", 1000, "10.1.2.3", 53, b"ping", ttl=ttl)


write("a.pcap", capture([(1, 2, question(64))]))
write("expected/a.g.pcap", capture([(1, 2, question(63))]))
write("expected/a.refused", "")
write("expected/report", line("a", 1, [("g", 1)]))
