#!/usr/bin/env python3
"""Groups with outputs of their own and a common one. Writes a.pcap, and what the chain file makes of it."""
import os
import sys

os.chdir(os.path.dirname(os.path.abspath(__file__)))
sys.path.insert(0, "..")
from packets import ACK, arp, at, capture, line, tcp, udp, write

web = tcp("10.0.0.1", 2000, "198.51.100.2", 80, 1, ACK, b"get")
question = udp("10.0.0.1", 1000, "10.1.2.3", 53, b"ping")
other = udp("10.0.0.1", 1000, "10.1.2.3", 99, b"ping")
marked = udp("10.0.0.1", 1000, "10.1.2.3", 53, b"ping", tos=8)
records = [at(0, other), at(1, web), at(2, question), at(3, web), at(4, arp())]
write("a.pcap", capture(records))
# A group without a match takes what those before it leave, also a frame that is no IPv4. What goes into one output keeps the order of records.
write("expected/a.all.pcap", capture([records[0], records[1], records[3], records[4]]))
write("expected/a.dns.pcap", capture([at(2, marked)]))
write("expected/a.refused", "")
write("expected/report", line("a", 5, [("all", 4), ("dns", 1)]))
