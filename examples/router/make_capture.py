#!/usr/bin/env python3
"""A router with two routes, of which the longer prefix wins. Writes a.pcap, and what the chain file makes of it."""
import os
import sys

os.chdir(os.path.dirname(os.path.abspath(__file__)))
sys.path.insert(0, "..")
from packets import arp, at, capture, line, udp, write

ROUTER = bytes.fromhex("0a000000000b")
WIDE = bytes.fromhex("0c0000000001")
NARROW = bytes.fromhex("0c0000000002")


def to(destination, ttl):
    return udp("192.0.2.7", 4000, destination, 4001, b"data", ttl=ttl)


write("a.pcap", capture([
    at(0, to("10.9.9.9", 64)),
    at(1, to("10.1.2.3", 2)),
    at(2, to("10.1.2.3", 1)),
    at(3, to("198.51.100.2", 1)),
    at(4, arp()),
]))
# The third frame's time to live ends; the fourth has no route, which is looked for first; the fifth is no IPv4 and passes unread.
write("expected/a.g.pcap", capture([
    at(0, WIDE + ROUTER + to("10.9.9.9", 63)[12:]),
    at(1, NARROW + ROUTER + to("10.1.2.3", 1)[12:]),
    at(4, arp()),
]))
write("expected/a.refused", "")
write("expected/report", line("a", 5, [("g", 3)], NoRoute=1, Ttl=1))
