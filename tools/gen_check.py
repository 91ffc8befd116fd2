#!/usr/bin/env python3
"""Compares what the built program makes in mode `gen` with the generated capture of tools/make_gen.py and what tools/plain_meaning.py makes of it:
every file, byte for byte, and the report, twice; and words that are no line.

Run at the top of the repository: tools/gen_check.py [NUMBER..], the number 7 where nothing is given. tools/gen_check.py --line NUMBER prints the
report that is expected, without the program.
"""
import os
import subprocess
import sys
import tempfile

sys.dont_write_bytecode = True
TOP = os.path.join(os.path.dirname(os.path.abspath(__file__)), "..")
sys.path.insert(0, os.path.join(TOP, "examples"))
from compare_plain import expected_of
from make_gen import records
from packets import capture

RECORDS = 20000
CHAIN_FILE = """version = 1
[[tenant]]
name = "gen"
capture = "%s/gen.pcap"
stages = [{ stage = "ttl" }]
[[tenant.group]]
name = "web"
match = { proto = "tcp", port = 80 }
stages = [{ stage = "window", size = 512 }]
[[tenant.group]]
name = "rest"
"""
CHAIN = {
    "name": "gen", "bytes": 65600, "unparsed": "pass", "nat": None, "stages": [{"stage": "ttl"}],
    "groups": [
        {"match": {"proto": 6, "port": 80}, "stages": [{"stage": "window", "size": 512, "reach": 65536}], "into": "web"},
        {"match": None, "stages": [], "into": "rest"},
    ],
}
NO_LINES = [["gen", "18446744073709551616", "out"], ["gen", "000000000000000000007", "out"], ["gen", "-7", "out"], ["gen", "7", "my out"]]


def expected(number):
    """The files of the number, and the report."""
    made = list(records(number, RECORDS))
    files, line = expected_of("gen", CHAIN, [(seconds, fraction, len(frame), frame) for seconds, fraction, frame in made], False)
    files["gen.pcap"] = capture(made)
    files["gen.toml"] = (CHAIN_FILE % "out").encode("ascii")
    return files, line


def wrong_of(program, number, files, line):
    """What is wrong with the files, the report or the status of a run."""
    with tempfile.TemporaryDirectory() as folder:
        out = os.path.join(folder, "out")
        os.mkdir(out)
        run = subprocess.run([program, "gen", number, "out"], cwd=folder, capture_output=True, text=True, check=False)
        if run.returncode != 0 or run.stdout != line:
            return "status %d, told\n%s and should tell\n%s" % (run.returncode, run.stdout, line)
        if sorted(os.listdir(out)) != sorted(files):
            return "other files"
        for name, content in files.items():
            with open(os.path.join(out, name), "rb") as file:
                if file.read() != content:
                    return name + " is another"
    return None


def main():
    if sys.argv[1:2] == ["--line"]:
        print(expected(int(sys.argv[2]))[1], end="")
        return 0
    subprocess.run([os.path.join(TOP, "bricks")], capture_output=True, check=False)
    program = os.path.abspath(os.path.join(TOP, "crates/bricks_main/out/bricks_main"))
    failed = 0
    for number in sys.argv[1:] or ["7"]:
        files, line = expected(int(number))
        # the same words give the same at each run, and so does a number with zeros in front
        for words in [number, number, number.zfill(20)]:
            wrong = wrong_of(program, words, files, line)
            if wrong:
                failed += 1
                print("gen %s: %s" % (words, wrong))
    for words in NO_LINES:
        with tempfile.TemporaryDirectory() as folder:
            run = subprocess.run([program] + words, cwd=folder, capture_output=True, text=True, check=False)
            if run.returncode != 2 or not run.stdout.startswith("usage: ") or os.listdir(folder):
                failed += 1
                print("%s: status %d" % (" ".join(words), run.returncode))
    print("mode gen: %s" % ("%d not as the plain meaning" % failed if failed else "as the plain meaning"))
    return 1 if failed else 0


if __name__ == "__main__":
    sys.exit(main())
