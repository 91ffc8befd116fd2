#!/usr/bin/env python3
"""A group with groups in it, which are picked by the port that the translation wrote. Writes a.pcap, and what the chain file makes of it."""
import os
import sys

os.chdir(os.path.dirname(os.path.abspath(__file__)))
sys.path.insert(0, "..")
from packets import ACK, at, capture, line, tcp, udp, write

SERVER = "198.51.100.2"
OUTSIDE = "203.0.113.1"


def request(source, sport, data):
    return tcp(source, sport, SERVER, 80, 1, ACK, data)


question = udp("192.0.2.1", 1000, "10.1.2.3", 53, b"ping")
write("a.pcap", capture([
    at(0, request("10.0.0.1", 1000, b"one")),
    at(1, request("10.0.0.2", 1000, b"two")),
    at(2, question),
]))
write("expected/a.first.pcap", capture([at(0, request(OUTSIDE, 40000, b"one"))]))
write("expected/a.second.pcap", capture([at(1, request(OUTSIDE, 40001, b"two"))]))
write("expected/a.rest.pcap", capture([at(2, question)]))
write("expected/a.refused", "")
write("expected/report", line("a", 3, [("first", 1), ("second", 1), ("rest", 1)]))
