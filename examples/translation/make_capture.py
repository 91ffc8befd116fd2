#!/usr/bin/env python3
"""Address translation with two ports outside. Writes a.pcap, and what the chain file makes of it."""
import os
import sys

os.chdir(os.path.dirname(os.path.abspath(__file__)))
sys.path.insert(0, "..")
from packets import ACK, at, capture, line, tcp, udp, write

SERVER = "198.51.100.2"
OUTSIDE = "203.0.113.1"


def request(source, sport):
    return tcp(source, sport, SERVER, 80, 1, ACK, b"get")


def reply(destination, dport):
    return tcp(SERVER, 80, destination, dport, 1, ACK, b"got")


write("a.pcap", capture([
    at(0, request("10.0.0.1", 1000)),
    at(1, request("10.0.0.2", 1000)),
    at(2, request("10.0.0.3", 1000)),
    at(3, reply(OUTSIDE, 40000)),
    at(4, udp(SERVER, 53, OUTSIDE, 40000, b"stray")),
]))
# The third flow finds no port. The reply goes to the host that asked. The last frame has another protocol, so it is no reply of a flow,
# and its own flow's first record does not come from inside: it passes unchanged.
write("expected/a.g.pcap", capture([
    at(0, request(OUTSIDE, 40000)),
    at(1, request(OUTSIDE, 40001)),
    at(3, reply("10.0.0.1", 1000)),
    at(4, udp(SERVER, 53, OUTSIDE, 40000, b"stray")),
]))
write("expected/a.refused", "")
write("expected/report", line("a", 5, [("g", 4)], NatFull=1))
