#!/usr/bin/env python3
"""Three tenants, of whom one has a capture that ends within a record. Writes the captures, and what the chain file makes of them."""
import os
import sys

os.chdir(os.path.dirname(os.path.abspath(__file__)))
sys.path.insert(0, "..")
from packets import at, capture, line, udp, write

first = [at(k, udp("10.0.0.1", 1000, "10.1.2.3", 53, b"ping")) for k in range(3)]
whole = capture(first)
third = [at(0, udp("10.0.0.9", 1000, "10.1.2.3", 53, b"pong", ttl=1)), at(1, udp("10.0.0.9", 1000, "10.1.2.3", 53, b"pong"))]

write("a.pcap", whole)
# ten bytes of a fourth record
write("b.pcap", whole + capture(first[:1])[24:34])
write("c.pcap", capture(third))
# The cut capture makes no file, and changes nothing for the others.
write("expected/a.g.pcap", whole)
write("expected/a.refused", "")
write("expected/c.g.pcap", capture([at(1, udp("10.0.0.9", 1000, "10.1.2.3", 53, b"pong", ttl=63))]))
write("expected/c.refused", "")
write("expected/report", line("a", 3, [("g", 3)]) + "b bad-capture 5 CutRecord number=3 at=%d\n" % len(whole) + line("c", 2, [("g", 1)], Ttl=1))
write("expected/status", "1\n")
