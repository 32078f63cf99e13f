#!/usr/bin/env python3
"""Makes docs/PORT-EDITS.txt anew: of each must-fail edit the file, the goal or law, and how the message begins.

usage: refused.py LOG [COMMIT] > docs/PORT-EDITS.txt      LOG: what `rt ci` printed, with every edit in it; COMMIT: the one it ran on, or HEAD
"""
import glob
import os
import re
import subprocess
import sys

LINE = re.compile(r"rt: must-fail (\w+/\w+)\.edit: refused, as it must be: (.*)")
PLACE = re.compile(r"(?:note: )?(?:\./)?([^\s:]+)(?::\d+)+: (?:error(?:\[\w+\])?: )?")


def said(log):
    """{'crate/name': 'file, goal: how the message begins'}"""
    out = {}
    with open(log, encoding="utf-8", errors="replace") as f:
        for l in f:
            if m := LINE.match(l.rstrip("\n")):
                name, text = m.groups()
                out[name] = PLACE.sub(r"\1, ", text, count=1).replace(", it is not proved that ", ", not proved: ", 1).rstrip()
    return out


def main(log, commit="HEAD"):
    here = os.path.dirname(os.path.dirname(os.path.dirname(os.path.realpath(__file__))))
    edits = {p.split(os.sep)[-3] + "/" + os.path.basename(p)[:-5] for p in glob.glob(os.path.join(here, "crates", "*", "must-fail", "*.edit"))}
    lines = said(log)
    if odd := sorted(lines.keys() ^ edits):
        sys.exit(f"{len(odd)} edits are not in the log as refused, or not here: {', '.join(odd[:9])}")
    at = subprocess.run(["git", "rev-parse", "--short=8", commit], cwd=here, capture_output=True, text=True, check=True).stdout.strip()
    print(f"Each must-fail edit, and the goal that refuses it at commit {at}: the file, the goal or law, and how the message begins. From the lines of `rt ci`, by tools/port/refused.py.\n")
    for name in sorted(lines):
        print(f"{name}: {lines[name]}")


if __name__ == "__main__":
    if len(sys.argv) not in (2, 3):
        sys.exit(__doc__)
    main(*sys.argv[1:])
