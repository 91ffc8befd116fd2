#!/usr/bin/env python3
"""Three tenants with few buffers, who wait for one, and many flows. Writes the captures, and what the chain file makes of them: the same with
lanes and without, whatever the number of workers."""
import os
import sys

os.chdir(os.path.dirname(os.path.abspath(__file__)))
sys.path.insert(0, "..")
from packets import ACK, arp, at, capture, line, tcp, udp, write

SERVER = "198.51.100.2"
OUTSIDE = "203.0.113.1"


def query(k, **edits):
    """Record k of tenant a: one of 30 flows, every third of them to port 53. Every seventh record is no IPv4."""
    if k % 7 == 6:
        return arp()
    flow = k % 30
    return udp("10.0.0.%d" % (1 + flow), 1000 + flow, "10.1.2.3", 53 if flow % 3 == 0 else 80, b"query %d" % k, **edits)


def request(k, source, sport):
    """Record k of tenant b, from an address and a port."""
    return tcp(source, sport, SERVER, 80, 1 + 10 * k, ACK, b"get %06d" % k)


def host(k):
    return "10.0.0.%d" % (1 + k % 12), 2000 + k % 12


def third(k, **edits):
    """Record k of tenant c: every fifth has too many bytes."""
    return udp("10.0.0.%d" % (1 + k % 4), 3000, SERVER, 53, bytes([k % 256]) * (150 if k % 5 == 0 else 20), **edits)


RECORDS = range(400)

write("a.pcap", capture([at(k, query(k)) for k in RECORDS]))
names = [k for k in RECORDS if k % 7 != 6 and k % 30 % 3 == 0]
others = [k for k in RECORDS if k not in names]
write("expected/a.names.pcap", capture([at(k, query(k, ttl=63, tos=8)) for k in names]))
write("expected/a.others.pcap", capture([at(k, query(k, ttl=63, tos=8)) for k in others]))
write("expected/a.refused", "")

# Ten ports for twelve flows: the last two have none.
write("b.pcap", capture([at(k, request(k, *host(k))) for k in RECORDS]))
ported = [k for k in RECORDS if k % 12 < 10]
write("expected/b.g.pcap", capture([at(k, request(k, OUTSIDE, 40000 + k % 12)) for k in ported]))
write("expected/b.refused", "")

write("c.pcap", capture([at(k, third(k)) for k in RECORDS]))
short = [k for k in RECORDS if k % 5]
write("expected/c.g.pcap", capture([at(k, third(k)) for k in short]))
write("expected/c.refused", "")

write("expected/report", line("a", 400, [("names", len(names)), ("others", len(others))])
      + line("b", 400, [("g", len(ported))], NatFull=400 - len(ported))
      + line("c", len(short), [("g", len(short))], Big=400 - len(short)))
