#!/usr/bin/env python3
"""Writes a capture of COUNT TCP segments of BYTES bytes, 1,460 where no number is given, in 50 flows in turn, each in order, and a chain file
of one tenant with windows of 1,460 bytes: make_stream.py COUNT CAPTURE CHAINS [BYTES]"""
import os
import sys

sys.dont_write_bytecode = True
sys.path.insert(0, os.path.join(os.path.dirname(os.path.abspath(__file__)), "..", "examples"))
from packets import ACK, SYN, at, capture, tcp, write

WINDOW = 1460
FLOWS = 50

count, name, chains = int(sys.argv[1]), sys.argv[2], sys.argv[3]
size = int(sys.argv[4]) if len(sys.argv) > 4 else WINDOW
data = bytes(k % 251 for k in range(size))


def segment(flow, sequence, flags, payload=b""):
    return tcp("10.0.0.%d" % (flow + 1), 2000 + flow, "198.51.100.2", 80, sequence, flags, payload, 1)


frames = [segment(flow, 1000, SYN) for flow in range(FLOWS)]
frames += [segment(k % FLOWS, 1001 + k // FLOWS * size, ACK, data) for k in range(count)]
write(name, capture([at(k, frame) for k, frame in enumerate(frames)]))
write(chains, """version = 1
[[tenant]]
name = "a"
capture = "%s"
stages = [{ stage = "window", size = %d, reach = 65536 }]
[[tenant.group]]
name = "g"
""" % (name, WINDOW))
