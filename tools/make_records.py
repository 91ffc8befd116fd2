#!/usr/bin/env python3
"""Writes a capture of many UDP records, and a chain file of one tenant for it: make_records.py COUNT CAPTURE CHAINS STAGES [BYTES]

STAGES is the text of the stages, or `row`: the stages ttl, only, a firewall of 8 rules and a route of 16 rows, or `full`: a firewall of 256
rules, which is the most, and a route of 64 rows. Every record passes them.
Each frame is 42 bytes of headers and BYTES bytes, 22 where no number is given. The records are of 500 flows in turn, whose source ports are
drawn by a generator with a fixed seed: where they counted up as the addresses do, the hashes of the flows would be even or odd together.
"""
import os
import random
import sys

sys.dont_write_bytecode = True
sys.path.insert(0, os.path.join(os.path.dirname(os.path.abspath(__file__)), "..", "examples"))
from packets import at, capture, udp, write


def firewall(rules):
    """A firewall of so many rules, of which the last allows each record and no other is met."""
    denied = ['{ verdict = "deny", match = { dport = %d } }' % port for port in range(1000, 999 + rules)]
    return '{ stage = "firewall", default = "deny", rule = [%s] }' % ", ".join(denied + ['{ verdict = "allow", match = { proto = "udp" } }'])


def route(rows):
    """A route of so many rows, of which the third is that of each record."""
    found = ['{ to = "10.1.%d.0/24", via = "0c:00:00:00:00:01" }' % third for third in range(rows)]
    return '{ stage = "route", mac = "0a:00:00:00:00:0b", route = [%s] }' % ", ".join(found)


def row():
    return ", ".join(['{ stage = "ttl" }', '{ stage = "only", match = { proto = "udp" } }', firewall(8), route(16)])


count, name, chains, stages = int(sys.argv[1]), sys.argv[2], sys.argv[3], sys.argv[4]
if stages == "row":
    stages = row()
elif stages == "full":
    stages = ", ".join([firewall(256), route(64)])
data = bytes(int(sys.argv[5]) if len(sys.argv) > 5 else 22)
ports = random.Random(7)
frames = [udp("10.0.%d.%d" % (k // 250, k % 250 + 1), ports.randrange(1024, 65536), "10.1.2.3", 53, data) for k in range(500)]
write(name, capture([at(k, frames[k % 500]) for k in range(count)]))
write(chains, """version = 1
[[tenant]]
name = "a"
capture = "%s"
stages = [%s]
[[tenant.group]]
name = "g"
""" % (name, stages))
