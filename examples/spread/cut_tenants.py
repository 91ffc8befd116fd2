#!/usr/bin/env python3
"""Cuts a chain file by tenant: cut_tenants.py CHAINS FOLDER writes a chain file for each tenant, 00.toml, 01.toml and so on.

The cuts are before the lines `[[tenant]]`; what stands before the first of them is the head of each file.
"""
import os
import sys

chains, folder = sys.argv[1], sys.argv[2]
with open(chains, encoding="utf-8") as file:
    head, *tenants = ("\n" + file.read()).split("\n[[tenant]]\n")
for number, tenant in enumerate(tenants):
    with open(os.path.join(folder, "%02d.toml" % number), "w", encoding="utf-8") as file:
        file.write("%s\n[[tenant]]\n%s" % (head.lstrip("\n"), tenant))
