#!/usr/bin/env python3
"""A firewall that lets questions to a name server out, and the answers back in. Writes a.pcap, and what the chain file makes of it."""
import os
import sys

os.chdir(os.path.dirname(os.path.abspath(__file__)))
sys.path.insert(0, "..")
from packets import at, capture, line, udp, write

question = udp("10.0.0.1", 1000, "10.1.2.3", 53, b"ping")
answer = udp("10.1.2.3", 53, "10.0.0.1", 1000, b"pong")
elsewhere = udp("10.0.0.1", 1000, "10.1.2.3", 99, b"ping")
unasked = udp("10.1.2.3", 99, "10.0.0.1", 1000, b"pong")

write("a.pcap", capture([at(0, question), at(1, answer), at(2, elsewhere), at(3, unasked)]))
# The answer comes back, since its flow's question was allowed. The third frame meets the rule that denies, and so does the fourth, whose
# flow's first record was not allowed.
write("expected/a.g.pcap", capture([at(0, question), at(1, answer)]))
write("expected/a.refused", "")
write("expected/report", line("a", 4, [("g", 2)], Fire=2))
