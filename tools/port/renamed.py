#!/usr/bin/env python3
"""Lists what each name of specs/ and proofs/ was called before port.py and names.py, crate by crate, and turns pages by that list.

usage: renamed.py LANDED RESPELLED              prints the list: crate, old name, new name
       renamed.py LANDED RESPELLED PAGE..       writes the new names into the pages, where an old one stands between backticks
"""
import re
import subprocess
import sys

NAME = re.compile(r"^\s*(?:(?:unfoldable|abbrev|pub|open|data|record) )*([^\s:{}()]+)(?: [^:]*)? :(?: |$)")


def git(*words):
    return subprocess.run(["git", *words], capture_output=True, text=True).stdout


def declared(commit, path):
    out = []
    for line in git("show", f"{commit}:{path}").split("\n"):
        m = NAME.match(line)
        if m and not line.lstrip().startswith("--"):
            out.append(m.group(1))
    return out


def pairs(landed, respelled):
    files = [f for f in git("ls-tree", "-r", "--name-only", landed, "crates").split("\n") if re.match(r"crates/[^/]+/(specs/.*|proofs/[^/]+)\.antt$", f)]
    for f in files:
        a, b = declared(landed, f), declared(respelled, f)
        key = lambda n: re.sub(r"_lem$", "", re.sub(r"[-_]", "", n).lower().replace("getd", "getor"))
        if len(a) != len(b):
            known = {key(y): y for y in b}
            both = [(x, known[key(x)]) for x in a if key(x) in known]
        else:
            both = list(zip(a, b))
        for x, y in both:
            if x != y and "." not in y and len(x) > 2:
                yield f.split("/")[1], x, y


def main(argv):
    found = sorted(set(pairs(argv[0], argv[1])))
    if len(argv) == 2:
        crate = None
        for c, x, y in found:
            if c != crate:
                print(f"\n{c}")
                crate = c
            print(f"    {x}  {y}")
        return
    table = {}
    for _, x, y in found:
        table.setdefault(x, set()).add(y)
    for page in argv[2:]:
        text = open(page, encoding="utf-8").read()

        def span(m):
            def word(w):
                y = table.get(w.group(0))
                return next(iter(y)) if y and len(y) == 1 else w.group(0)

            return "`" + re.sub(r"[A-Za-z][\w'′-]*", word, m.group(1)) + "`"

        new = re.sub(r"`([^`\n]+)`", span, text)
        if new != text:
            open(page, "w", encoding="utf-8").write(new)


if __name__ == "__main__":
    main(sys.argv[1:])
