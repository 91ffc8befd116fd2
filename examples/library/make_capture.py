#!/usr/bin/env python3
"""Writes the capture of the library example, and what it makes of it: a datagram with another type of service, and nothing of the rest."""
import os
import sys

sys.dont_write_bytecode = True
sys.path.insert(0, os.path.join(os.path.dirname(os.path.abspath(__file__)), ".."))
from packets import ACK, arp, at, capture, tcp, udp, write

HERE = os.path.dirname(os.path.abspath(__file__))


def question(tos):
    return udp("10.0.0.1", 1000, "10.1.2.3", 53, b"ping", tos=tos)


records = [
    at(0, question(0)),
    at(1, tcp("10.0.0.1", 2000, "10.1.2.3", 80, 1, ACK, b"GET")),
    at(2, arp()),
    at(3, question(0x20)),
]
write(os.path.join(HERE, "in.pcap"), capture(records))
write(os.path.join(HERE, "..", "..", "crates", "library_example", "data", "in.pcap"), capture(records))
write(os.path.join(HERE, "expected", "out.pcap"), capture([at(0, question(8)), at(3, question(8))]))
write(os.path.join(HERE, "expected", "report"), "2 of 4 records are datagrams\n")
write(os.path.join(HERE, "..", "..", "crates", "library_example", "stdout"), "2 of 4 records are datagrams\n")
