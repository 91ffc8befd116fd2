#!/usr/bin/env python3
"""Writes a capture of one TCP stream of COUNT times 64 bytes, of which the first 64 come last or not at all, and a chain file of one tenant
with windows of 64 bytes and a stage behind them: make_gap.py COUNT CAPTURE CHAINS [closed]"""
import os
import sys

sys.dont_write_bytecode = True
sys.path.insert(0, os.path.join(os.path.dirname(os.path.abspath(__file__)), "..", "examples"))
from packets import ACK, SYN, at, capture, tcp, write

# 22 windows
SEGMENT = 1408

count, name, chains = int(sys.argv[1]), sys.argv[2], sys.argv[3]
data = bytes(k % 251 for k in range(count * 64))


def segment(place, payload):
    return tcp("10.0.0.1", 2000, "198.51.100.2", 80, 1001 + place, ACK, payload, 1)


frames = [tcp("10.0.0.1", 2000, "198.51.100.2", 80, 1000, SYN)]
frames += [segment(place, data[place:place + SEGMENT]) for place in range(64, len(data), SEGMENT)]
if "closed" in sys.argv[4:]:
    frames.append(segment(0, data[:64]))
write(name, capture([at(k, frame) for k, frame in enumerate(frames)]))
write(chains, """version = 1
[[tenant]]
name = "a"
capture = "%s"
stages = [{ stage = "window", size = 64, reach = 1048576 }, { stage = "ttl" }]
[[tenant.group]]
name = "g"
""" % name)
