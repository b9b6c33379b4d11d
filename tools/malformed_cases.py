#!/usr/bin/env python3
"""Runs the built program `cases` on malformed case files, and compares the file and the line that it tells.

Run it at the top of the repository, after a first proof (cd crates/cases && rt run). Its status is 1 where one is not told.
"""
import os
import shutil
import subprocess
import sys
import tempfile

TOP = os.path.dirname(os.path.dirname(os.path.abspath(__file__)))
HEAD = '[[case]]\nname = "n"\nwords = ["lattice", "chain.lat"]\nstatus = "done"\n'
FILE = '[[case.file]]\nname = "chain.lat"\n'
TEXT = 'text = "twice\\ntwice\\nonce\\n"\n'

# What stands behind a whole case; the line that is told is that of its head, 1.
MORE = [
    'outs = "x"', "out = 3", 'out = ""\nout_file = "pair.out"', 'err = ""\nerr_part_of = "x"', 'out_file = "no.out"',
    "piece = 0", "piece = -1", "piece = 1.5", "piece = 4294967296",
    "fail_loads = 1", 'fail_loads = [1, "x"]', "fail_puts = [-1]", 'failed = "x"', "loads = [1]",
    'each = "load"', 'each = ["loads"]', "each = [1]", 'each = ["load"]', 'each = ["put"]\nout_begins_with = "x"',
    'file = "x"', 'file = ["x"]', '  [[case]]\n  name = "m"', '[case.files]\nname = "x"',
    '[[case.file]]\ntext = "x"', '[[case.file]]\nname = "no.lat"', '[[case.file]]\nname = 1',
    FILE + 'texts = "x"', FILE + 'text = "x"\nexample = "two.lat"', FILE + 'example = "no.lat"', FILE + 'out_of = "nobody"',
    FILE + "changes = 3", FILE + "changes = [3]",
]

# Changes that are none, of a file with these lines.
CHANGES = [
    "{}", "{ place = 3 }", '{ replace = "once", with = "x", cut = 3 }', '{ replace = "once" }', '{ with = "x", remove = "once" }',
    '{ repeat = "x" }', "{ byte = 256, at = 0 }", "{ byte = -1, at = 0 }", "{ byte = 1 }", '{ after = "once" }', '{ cut = "x" }',
    "{ cut = 100 }", "{ byte = 1, at = 100 }", '{ remove = "never" }', '{ remove = "twice" }', '{ add = "x", after = "twice" }',
]

# Whole files, each with the line that is told.
FILES = [
    ("# a comment\n" + HEAD + "out = \n", 6),
    (HEAD + '\n[[case]]\nname = "m"\nwords = ["x"\nstatus = "done"\n', 8),
    ("\n\n" + HEAD + "no = 1\n", 3),
    ("key = 1\n" + HEAD, 1),
    ('[[case]]\nwords = []\nstatus = "done"\n', 1),
    ('[[case]]\nname = "a"\nstatus = "done"\n', 1),
    ('[[case]]\nname = "a"\nwords = []\n', 1),
    ('[[case]]\nname = 1\nwords = []\nstatus = "done"\n', 1),
    ('[[case]]\nname = "a"\nwords = "a"\nstatus = "done"\n', 1),
    ('[[case]]\nname = "a"\nwords = ["a", 1]\nstatus = "done"\n', 1),
    ('[[case]]\nname = "a"\nwords = []\nstatus = "don"\n', 1),
    ('[[case]]\nname = "a"\nwords = []\nstatus = true\n', 1),
    (HEAD + "\n" + HEAD, 6),
]
FILES += [(HEAD + more + "\n", 1) for more in MORE]
FILES += [(HEAD + FILE + TEXT + f"changes = [{change}]\n", 1) for change in CHANGES]


def told(text):
    """What the program tells of a case file, and its status."""
    with tempfile.TemporaryDirectory() as folder:
        shutil.copytree(f"{TOP}/crates/cases/data/examples", f"{folder}/examples")
        os.mkdir(f"{folder}/cases")
        with open(f"{folder}/cases/bad.toml", "w", encoding="utf-8") as file:
            file.write(text)
        ran = subprocess.run([f"{TOP}/crates/cases/out/cases"], cwd=folder, capture_output=True, text=True, check=False)
        return ran.stdout, ran.returncode


failed = 0
for text, line in FILES:
    said, status = told(text)
    last = said.splitlines()[-1] if said else ""
    if status != 1 or not last.startswith(f"bad.toml:{line}: "):
        failed += 1
        print(f"line {line} is not told, but {last!r} with status {status}, of\n{text}")
print(f"{len(FILES) - failed} malformed files told, {failed} not")
sys.exit(1 if failed else 0)
