#!/usr/bin/env python3
"""All that may become of a frame at the stages that treat each alone. Writes a.pcap, and what the chain file makes of it."""
import os
import sys

os.chdir(os.path.dirname(os.path.abspath(__file__)))
sys.path.insert(0, "..")
from packets import SYN, arp, at, capture, line, tcp, udp, write


def question(destination, ttl=64, tos=0, data=b"ping"):
    return udp("10.0.0.1", 1000, destination, 53, data, ttl=ttl, tos=tos)


write("a.pcap", capture([
    at(0, question("10.1.2.3")),
    at(1, arp()),
    at(2, tcp("10.0.0.1", 1000, "10.1.2.3", 53, 1, SYN)),
    at(3, question("10.1.2.3", ttl=1)),
    at(4, question("203.0.113.9")),
    at(5, question("10.1.2.3", data=bytes(1500))),
]))
# The first frame alone is left: the others are no IPv4, TCP, at the end of their time to live, to another network, and too long.
write("expected/a.dns.pcap", capture([at(0, question("10.1.2.3", ttl=63, tos=184))]))
write("expected/a.refused", "")
write("expected/report", line("a", 5, [("dns", 1)], Big=1, Unparsed=1, Ttl=1, Filter=2))
