#!/usr/bin/env python3
"""Gives each example of docs/CHAIN-FILE.md to the built program, which accepts it, or tells the fault that stands behind it.

Run at the top of the repository: tools/chain_file_examples.py [PROGRAM]. The folder of the outputs is `out`, and nothing is written.
"""
import re
import subprocess
import sys
import tempfile

EXAMPLE = re.compile(r"^```toml\n(.*?)^```\n(?:gives `([^`\n]*)`\n)?", re.MULTILINE | re.DOTALL)


def main():
    program = sys.argv[1] if len(sys.argv) > 1 else "./bricks"
    with open("docs/CHAIN-FILE.md", encoding="utf-8") as page:
        examples = EXAMPLE.findall(page.read())
    failed = 0
    for text, fault in examples:
        with tempfile.NamedTemporaryFile("w", suffix=".toml", encoding="utf-8") as chains:
            chains.write(text)
            chains.flush()
            run = subprocess.run([program, "check", chains.name, "out"], capture_output=True, text=True, check=False)
        right = run.returncode == 3 and run.stdout == fault + "\n" if fault else run.returncode == 0
        if not right:
            failed += 1
            print(f"status {run.returncode}, wanted {fault or 'acceptance'}, got {run.stdout!r} for:\n{text}")
    print(f"chain files of the page: {len(examples) - failed} as they should be, {failed} not")
    return 1 if failed or not examples else 0


sys.exit(main())
