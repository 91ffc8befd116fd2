#!/usr/bin/env python3
"""Worked rows, a tenant each: captures of few records, and what the chain file makes of them."""
import os
import sys

os.chdir(os.path.dirname(os.path.abspath(__file__)))
sys.path.insert(0, "..")
from packets import ACK, FIN, PSH, SYN, arp, at, capture, line, tcp, udp, write

PING = udp("10.0.0.1", 1000, "10.1.2.3", 53, b"ping")
report = ""


def row(name, frames, outputs, **drops):
    """A tenant's capture of these frames, and of each output its items: the number of the record whose time each has, and its frame."""
    global report
    records = [at(k, frame) for k, frame in enumerate(frames)]
    write(name + ".pcap", capture(records))
    for output, items in outputs.items():
        write("expected/%s.%s.pcap" % (name, output), capture([at(k, frame) for k, frame in items]))
    write("expected/%s.refused" % name, "")
    report += line(name, len(frames) - drops.get("Big", 0), [(output, len(items)) for output, items in outputs.items()], **drops)


def client(sequence, flags, data=b"", acknowledgement=0):
    return tcp("10.0.0.1", 2000, "198.51.100.2", 80, sequence, flags, data, acknowledgement)


def server(sequence, flags, data=b"", acknowledgement=0):
    return tcp("198.51.100.2", 80, "10.0.0.1", 2000, sequence, flags, data, acknowledgement)


# no record: three files with a header alone
row("empty", [], {"one": [], "two": [], "three": []})

# a frame that is no IPv4 passes, is dropped, or finds no group
row("other-passes", [arp()], {"g": [(0, arp())]})
row("other-dropped", [arp()], {"g": []}, Unparsed=1)
row("other-lost", [arp()], {"g": []}, NoGroup=1)

# sequence numbers go on at 0 behind the last one: one window, and nothing is left
first, second = bytes(range(32)), bytes(range(32, 64))
row("wrap", [client(0xFFFFFFF0, ACK, first), client(0x10, ACK, second)], {"g": [(1, client(0xFFFFFFF0, PSH | ACK, first + second))]})

# a FIN leaves a bare segment behind its bytes, and these come at the end
row("fin", [client(500, FIN | ACK, b"0123456789")], {"g": [(0, client(510, FIN | ACK)), (0, client(500, PSH | ACK, b"0123456789"))]})

# two groups into one output: a window stands in the order of the record that triggered it
data = bytes(64)
row("joined", [PING, client(1, FIN | ACK, data), PING],
    {"all": [(0, PING), (1, client(65, FIN | ACK)), (1, client(1, PSH | ACK, data)), (2, PING)]})

# groups in a group, behind its window
row("behind", [client(1, ACK, data), PING], {"web": [(0, client(1, PSH | ACK, data))], "other": [], "rest": [(1, PING)]})

# a web exchange: three segments with data leave as one window and two rests
request, answer = b"G" * 78, bytes(k % 251 for k in range(2896))
exchange = [
    client(100, SYN),
    server(300, SYN | ACK, acknowledgement=101),
    client(101, ACK, acknowledgement=301),
    client(101, PSH | ACK, request, 301),
    server(301, ACK, acknowledgement=179),
    server(301, ACK, answer[:1448], 179),
    server(1749, PSH | ACK, answer[1448:], 179),
    client(179, ACK, acknowledgement=3197),
    server(3197, FIN | ACK, acknowledgement=179),
    client(179, FIN | ACK, acknowledgement=3198),
    server(3198, ACK, acknowledgement=180),
]
row("web", exchange, {"g": [(k, exchange[k]) for k in (0, 1, 2, 4)] + [(6, server(301, PSH | ACK, answer[:1460], 179))] + [(k, exchange[k]) for k in (7, 8, 9, 10)]
    + [(3, client(101, PSH | ACK, request, 301)), (6, server(1761, PSH | ACK, answer[1460:], 179))]})

# a record that is too long is dropped, and opens its flow all the same: the next one has no port of its own left
big = udp("10.0.0.1", 1000, "10.1.2.3", 53, bytes(58))
row("big", [big], {"g": []}, Big=1)
row("big-opens", [big, PING, udp("10.0.0.2", 1000, "10.1.2.3", 53, b"ping")], {"g": [(1, udp("203.0.113.1", 40000, "10.1.2.3", 53, b"ping"))]}, Big=1, NatFull=1)

write("expected/report", report)
