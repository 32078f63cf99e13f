#!/usr/bin/env python3
"""Brings the repository's own names in specs, proofs and clauses to the spelling of today's Rattle, once, behind port.py.

usage: names.py [--check] [ROOT]

A definition, lemma, field or constructor that begins with a small letter goes to snake case: `checkBook` is `check_book`, `both-orders`
is `both_orders`. Types and modules keep their capitals. Where the new name falls together with another one, the table CLASH says what
stands for it. Strings in .rt files and the names of functions of src/ stay. --check prints what falls together and writes nothing.
"""
import collections
import os
import re
import sys

# Of a definition and a lemma that fall together the lemma, which had dashes, is `_lem` at its end. port.py wrote some names with `_`
# already: where one of these had dashes and falls together with a definition, it is turned too, in .antt files alone.

TOKEN = re.compile(r"[^\s(){}\[\].,;:@\"`λ→×≡≤<>+*/∷%^&|=?!#◌⊎]+")
DECL = re.compile(r"^(\s*)((?:unfoldable |abbrev |pub |open |data |record )*)([^\s:{}()]+(?: [^\s:{}()]+)*?) :(?: |$)")


def files(root):
    for folder, dirs, names in os.walk(os.path.join(root, "crates")):
        dirs[:] = sorted(d for d in dirs if d != "out")
        for n in sorted(names):
            if n.endswith((".antt", ".rt")):
                yield os.path.join(folder, n)


def low(n):
    out = []
    for i, ch in enumerate(n):
        if ch.isupper():
            if i and out[-1] != "_" and (n[i - 1].islower() or n[i - 1].isdigit()):
                out.append("_")
            out.append(ch.lower())
        else:
            out.append(ch)
    return "".join(out)


def new_name(n):
    """The spelling of today: a part that begins with a capital behind a dash is a fact's name and keeps it."""
    return low(n.replace("-", "_").replace("′", "'"))


def table_of(decl):
    back = collections.defaultdict(set)
    for n in decl:
        back[new_name(n)].add(n)
    table = {}
    for new, olds in back.items():
        if len(olds) == 1:
            (n,) = olds
            table[n] = new
            continue
        camel = [n for n in olds if "-" not in n and n != new]
        dashed = [n for n in olds if "-" in n]
        # the one in snake case was a definition, unless a definition in camel case stands beside it
        lemmas = dashed or [new]
        for n in olds:
            table[n] = new + "_lem" if n in lemmas else new
        kept = [n for n in olds if table[n] == new]
        if len(kept) != 1 or len(lemmas) != 1 or new + "_lem" in decl:
            print("together:", new, olds)
    return {a: b for a, b in table.items() if a != b}


def strip_comment(line):
    return line.split("--", 1)[0] if line.lstrip().startswith("--") or " -- " in line else line


def declared(root):
    found = collections.defaultdict(set)
    for p in files(root):
        if not p.endswith(".antt"):
            continue
        base = os.path.basename(p)
        hand = base == "Proof.antt"
        for line in open(p, encoding="utf-8"):
            line = strip_comment(line)
            m = DECL.match(line)
            if m:
                if hand and "tie.Need" in line:
                    continue
                for n in m.group(3).split():
                    if hand and ("-Inv-" in n or n.startswith("μ")):
                        continue
                    if n[0].islower():
                        found[n].add(p)
    return found


def foreign(root):
    """Names that a file imports from elsewhere than this repository's crates."""
    own = {c for c in os.listdir(os.path.join(root, "crates"))}
    out = {}
    for p in files(root):
        names = set()
        for line in open(p, encoding="utf-8"):
            m = re.match(r"^(?:pub |ghost )*use ([^\s{]+)\.\{(.*)\}", line)
            if m:
                parts = m.group(1).split(".")
                if parts[0] != "Rattle" or parts[1] not in own or (len(parts) > 2 and parts[2] == "proofs" and parts[-1] in ("Tie", "Lts", "Reads", "Statement")):
                    names |= {x.split(" as ")[0].strip() for x in m.group(2).split(",")}
        out[p] = names
    return out


STRING = re.compile(r'b?"(?:[^"\\]|\\.)*"')


def turned(text, table, skip, rt):
    def word(m):
        t = m.group(0)
        if rt and t == new_name(t):
            return t
        return table[t] if t in table and t not in skip else t

    def code(line):
        if not rt:
            return TOKEN.sub(word, line)
        out, at = [], 0
        for m in STRING.finditer(line):
            out.append(TOKEN.sub(word, line[at:m.start()]))
            out.append(m.group(0))
            at = m.end()
        out.append(TOKEN.sub(word, line[at:]))
        return "".join(out)

    def comment(line):
        parts = line.split("`")
        for i, part in enumerate(parts):
            if i % 2:
                parts[i] = TOKEN.sub(word, part)
            else:
                parts[i] = TOKEN.sub(lambda m: m.group(0) if "-" in m.group(0) else word(m), part)
        return "`".join(parts)

    def line_of(line):
        mark = "//" if rt else "--"
        m = re.search(r"(^|\s)" + mark + r"(\s|$|!|/)", line)
        if m:
            return code(line[:m.start()]) + comment(line[m.start():])
        return code(line)

    return "\n".join(line_of(l) for l in text.split("\n"))


def main(argv):
    check = "--check" in argv
    rest = [a for a in argv if a != "--check"]
    root = rest[0] if rest else "."
    decl = declared(root)
    table = table_of(decl)
    outside = foreign(root)
    news = set(table.values())
    for p in files(root):
        text = open(p, encoding="utf-8").read()
        skip = outside[p]
        body = "\n".join(strip_comment(l) for l in text.split("\n")) if p.endswith(".antt") else text
        toks = [m for m in TOKEN.finditer(body)]
        have = {}
        for m in toks:
            before = body[m.start() - 1] if m.start() else " "
            if before != ".":
                have.setdefault(m.group(0), m.start())
        if p.endswith(".antt"):
            for t in list(have):
                if t in table and t not in skip and table[t] in have and table[t] not in decl:
                    ln = body[:have[table[t]]].count("\n") + 1
                    print("near:", p.split("crates/")[1] + f":{ln}", t, "->", table[t], "stands there already")
        else:
            # parameters of a function whose clauses name a definition of that spelling
            for m in re.finditer(r"\bfn (\w+)(?:<[^>]*>)?\(([^)]*)\)(.*?)\n\{", text, re.S):
                params = set(re.findall(r"(\w+):", m.group(2)))
                clause = m.group(3)
                for t in set(TOKEN.findall(clause)):
                    if t in table and table[t] in params:
                        print("param:", p.split("crates/")[1], m.group(1), t, "->", table[t])
    if check:
        print(len(table), "names")
        return 0
    for p in files(root):
        text = open(p, encoding="utf-8").read()
        new = turned(text, table, outside[p], p.endswith(".rt"))
        # another name that a file gives to what it imports
        for n in sorted(set(re.findall(r" as ([a-z]+[A-Z][A-Za-z]*)", new))):
            new = re.sub(r"(?<![\w.])" + n + r"(?![\w-])", low(n), new)
        if new != text:
            open(p, "w", encoding="utf-8").write(new)
    print(len(table), "names turned")
    return 0


if __name__ == "__main__":
    raise SystemExit(main(sys.argv[1:]))
