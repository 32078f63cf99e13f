#!/usr/bin/env python3
"""Turns the proofs that an older Rattle read, proofs/F/Proof.antt over `tie.spec`, to Invariants.antt and Answers.antt, once.

usage: proofs.py NAMES LANDED CRATE..      at the top of the repository

NAMES is a folder as `rt names` writes it (NAMES/crates/CRATE/names.json: the old and new name of each goal, step and clause), LANDED the
commit before the port. An answer that only called the search is left out: the check tries more by itself. It prints what it left to hand.
"""
import json
import os
import re
import subprocess
import sys

IDENT = r"[^\s(){}\[\],;.:]+"
SIG = re.compile(r"^(?:(?:abbrev|pub|unfoldable|private) )*([^\s:(){}]+) :(?=\s|$)")
OPEN, CLOSE = "([{", ")]}"


def norm(s):
    s = s.replace("_", "-").lower()
    return s[:-4] if s.endswith("-lem") else s


class Decl:
    def __init__(self, name):
        self.name, self.sig, self.unfold, self.body = name, [], [], []

    def text(self):
        return "\n".join(self.sig + self.unfold + self.body)


def parse(text):
    """The `use` lines, and the declarations in order."""
    uses, decls, cur, comment = [], [], None, []
    lines = text.split("\n")
    i = 0
    while i < len(lines):
        l = lines[i]
        if l.startswith("use ") or (uses and cur is None and l[:1] in (" ", "}") and l.strip()):
            if l.startswith("use "):
                uses.append(l)
            else:
                uses[-1] += "\n" + l
            i += 1
            continue
        m = SIG.match(l)
        if m:
            cur = Decl(m.group(1))
            decls.append(cur)
            cur.sig.append(l)
        elif cur is None:
            pass
        elif not cur.body and l.startswith("unfolding "):
            cur.unfold.append(l)
        elif not cur.body and re.match(r"^" + re.escape(cur.name) + r"(\s|$)", l) and not SIG.match(l):
            cur.body.append(l)
        elif cur.body:
            cur.body.append(l)
        else:
            cur.sig.append(l)
        i += 1
    for d in decls:
        while d.body and not d.body[-1].strip():
            d.body.pop()
    return uses, decls


def landed_text(commit, path):
    r = subprocess.run(["git", "show", f"{commit}:{path}"], capture_output=True, text=True)
    return r.stdout if r.returncode == 0 else ""


NEED = re.compile(r"(?:\btie|\b[\w+-]*lts)\.Need-([^\s(){},]+)")


def split_top(s, sep):
    out, depth, at = [], 0, 0
    i = 0
    while i < len(s):
        ch = s[i]
        if ch in OPEN:
            depth += 1
        elif ch in CLOSE:
            depth -= 1
        elif depth == 0 and s.startswith(sep, i):
            out.append(s[at:i])
            i += len(sep)
            at = i
            continue
        i += 1
    out.append(s[at:])
    return out


def stripped(s):
    """Without parentheses round the whole, or None."""
    s = s.strip()
    if not s.startswith("("):
        return None
    depth = 0
    for i, ch in enumerate(s):
        if ch in OPEN:
            depth += 1
        elif ch in CLOSE:
            depth -= 1
            if depth == 0:
                return s[1:i] if i == len(s) - 1 else None
    return None


def parts_of(s, n):
    """(a, (b, c)) as n parts, or None."""
    if n == 1:
        return [s.strip()]
    inner = stripped(s)
    if inner is None:
        return None
    two = [x for x in split_top(inner, ",") if x.strip()]
    if len(two) == 2:
        rest = parts_of(two[1], n - 1)
        return None if rest is None else [two[0].strip()] + rest
    if len(two) > 2 and len(two) == n:
        return [t.strip() for t in two]
    return None


def with_fields(body, fields, cycle_call):
    """The tuple at the end of a body as a record of the clauses."""
    head, tail = "", body.strip()
    while True:
        m = re.match(r"^(let\s)", tail)
        if not m:
            break
        pieces = split_top(tail, " in ")
        if len(pieces) < 2:
            nl = split_top(tail, " in\n")
            if len(nl) < 2:
                return None
            head += nl[0] + " in\n    "
            tail = " in\n".join(nl[1:]).strip()
            continue
        head += pieces[0] + " in "
        tail = " in ".join(pieces[1:]).strip()
    first = ""
    if cycle_call:
        two = parts_of(tail, 2)
        if two is None:
            return None
        first, tail = two
    parts = parts_of(tail, len(fields))
    if parts is None:
        return None
    rec = "record {\n" + "\n".join(f"        {f} = {p};" for f, p in zip(fields, parts)).rstrip(";") + "\n    }"
    if cycle_call:
        rec = f"({first}, {rec})"
    return head + rec


class Fn:
    """What names.json says of one function."""

    def __init__(self, crate, key, v, left):
        self.crate, self.key, self.v, self.left = crate, key, v, left
        self.places = {p[0]: p for p in v["places"]}
        self.order = [p[0] for p in v["places"]]
        self.newplace = {p[0]: n for p, n in zip(v["places"], v["places_by_name"])}
        self.needs = v["needs"]
        self.asked_at = v["asked_at"]
        self.clauses = {p[0]: c for p, c in zip(v["places"], v["clauses"])}
        self.typed = {p[0]: t for p, t in zip(v["places"], v["typed"])}
        self.arms = {p[0]: a for p, a in zip(v["places"], v["arms"])}
        self.stem = v["stem"] if isinstance(v["stem"], str) else ""
        self.params = v["params"]
        self.argmap = {}
        for a, b in v["args"]:
            ma, mb = re.match(r"\.args \.(\S+)", a), re.match(r"\.args \.(\S+)", b)
            if ma and mb:
                self.argmap[ma.group(1)] = mb.group(1)
        self.pre = v["pre"]["fields"] if v["pre"] else None
        self.cycle = "+" in key

    def up(self, place, k):
        while k and place is not None:
            place = self.places[place][1] if place in self.places else None
            k -= 1
        return place

    def nested(self, rest, names, what):
        """`.1.1.0.x` over right-nested pairs of these names: `.name.x`."""
        k = 0
        while k < len(rest) and rest[k] == "1" and k < len(names) - 1:
            k += 1
        if k < len(names) - 1 and k < len(rest) and rest[k] == "0":
            return [names[k]] + rest[k + 1:]
        if k == len(names) - 1:
            return [names[k]] + rest[k:]
        self.left.append(f"{self.key}: {what} .{'.'.join(rest)}")
        return rest

    def step(self, place, field):
        """The step of that name at the place or above it, as (place, new name)."""
        while place is not None:
            p = self.places[place]
            if norm(p[2][0]) == norm(field) and p[2][0]:
                return place, p[2][1]
            place = p[1]
        return None

    def arm(self, place, field, rest):
        """What a `match` gave, by its arm."""
        while place in self.places:
            a = self.arms.get(place)
            for new, old, path in a[2] if a else []:
                if path and norm(old) == norm(field) and rest[:len(path)] == path:
                    return [a[0], new] + rest[len(path):]
            place = self.places[place][1]
        return None

    def path(self, var, place, words):
        """var.before.before.F.rest in today's words; place is where var stands."""
        k = 0
        while k < len(words) and words[k] == "before":
            k += 1
        rest = words[k:]
        if not rest:
            return ".".join([var] + words)
        at = self.up(place, k)
        f, rest = rest[0], rest[1:]
        if f == "well_formed_lem":
            f = "well_formed"
        if f == "args":
            if rest and rest[0] in self.argmap:
                rest = [self.argmap[rest[0]]] + rest[1:]
            return ".".join([var, "args"] + rest)
        if f in ("requires", "pre"):
            if self.cycle and rest and rest[0] == "0" and not rest[1:2] == ["x"]:
                if rest == ["0"]:
                    return ".".join([var, "decreases"])
            if self.cycle and rest and rest[0] == "1":
                rest = rest[1:]
            if self.pre and len(self.pre) > 1:
                rest = self.nested(rest, self.pre, "requires")
            return ".".join([var, "requires"] + rest)
        if f in ("ranges", "lifetimes", "well_formed", "well-formed", "type_inv"):
            return ".".join([var, f.replace("-", "_")] + rest)
        arm = self.arm(place, f, rest)
        if arm:
            return ".".join([var] + arm)
        found = at and self.step(at, f) or self.step(place, f)
        if not found:
            self.left.append(f"{self.key}: no step {f} at {at}")
            return ".".join([var] + words[k:])
        q, new = found
        for t, s in [x for x in self.typed.get(q, []) if isinstance(x, list) and len(x) == 2]:
            if norm(s) == norm(self.places[q][2][0]) and rest[:1] == ["given"]:
                return ".".join([var, "type_inv", t] + rest[1:])
        return ".".join([var, new] + self.fields(q, rest))

    def fields(self, q, rest):
        """What stands behind the step of a place."""
        callee = self.places[q][3]
        if callee and rest:
            names = self.params.get(callee)
            if rest[0] in ("new", "last") and names and rest[1:]:
                rest = ["new"] + self.nested_all(rest[1:], names)
            elif rest[0] in ("auto", "kept") and names and rest[1:]:
                rest = ["auto"] + self.nested_all(rest[1:], names)
            elif rest[0] == "ensures":
                c = self.clauses.get(q)
                if c and len(c["fields"]) > 1 and rest[1:]:
                    rest = ["ensures"] + self.nested(rest[1:], c["fields"], "ensures of " + callee)
        return rest

    def nested_all(self, rest, names):
        k = 0
        while k < len(rest) and rest[k] == "1":
            k += 1
        if k < len(names) and k < len(rest) and rest[k] == "0":
            return [names[k]] + rest[k + 1:]
        if rest and not rest[0].isdigit():
            return rest
        self.left.append(f"{self.key}: new or auto .{'.'.join(rest)}")
        return rest

    def body(self, text, env):
        """Paths from the variables of env, a map to places."""
        env = dict(env)
        for m in list(re.finditer(r"\blet ([^\s:]+) = ([^\s(){}.]+)((?:\.before)+) in\b", text)):
            if m.group(2) in env:
                x = m.group(1)
                env[x] = env[m.group(2)]
                if not re.search(r"(?<![\w.'-])" + re.escape(x) + r"(?![\w'.-])", text[m.end():]):
                    text = text.replace(m.group(0), f"let {x} = {m.group(2)} in")
        names = "|".join(sorted(map(re.escape, env), key=len, reverse=True))
        rx = re.compile(r"(?<![\w.'-])(" + names + r")((?:\.[^\s(){}\[\],;.]+)+)")

        def one(m):
            return self.path(m.group(1), env[m.group(1)], m.group(2)[1:].split("."))

        text = rx.sub(one, text)
        # a step that has a name of its own by a let
        for m in list(re.finditer(r"\blet ([^\s:]+) = (?:" + names + r")\.([^\s(){}.]+) in\b", text)):
            for q in self.order:
                if self.places[q][2][1] == m.group(2) and self.places[q][3]:
                    rx2 = re.compile(r"(?<![\w.'-])" + re.escape(m.group(1)) + r"((?:\.[^\s(){}\[\],;.]+)+)")
                    text = rx2.sub(lambda k: ".".join([m.group(1)] + self.fields(q, k.group(1)[1:].split("."))), text)
                    break
            if m.group(2) == "requires" and self.pre and len(self.pre) > 1:
                rx2 = re.compile(r"(?<![\w.'-])" + re.escape(m.group(1)) + r"((?:\.\d[^\s(){}\[\],;.]*)(?:\.[^\s(){}\[\],;.]+)*)")
                text = rx2.sub(lambda k: ".".join([m.group(1)] + self.nested(k.group(1)[1:].split("."), self.pre, "requires")), text)
        # what `not` was is said by the test itself now
        own = [m.group(1) for m in re.finditer(r"\blet ([^\s:]+) = (?:" + names + r")\.if-not-[^\s(){}.]+ in\b", text)]
        alias = "".join("|" + re.escape(x) + r"\.(?:true|false)" for x in own)
        test = r"((?:" + names + r")\.if-not-[^\s(),]+" + alias + ")"
        text = re.sub(r"\(not-(?:true|false) (?:_|[\w.'-]+|\([^()]*\))\s+" + test + r"\)", r"\1", text)
        text = re.sub(r"\bnot-(?:true|false) (?:_|[\w.'-]+|\([^()]*\))\s+" + test, r"\1", text)
        for m in list(re.finditer(r"\blet ([^\s:]+) = (?:" + names + r")\.args in\b", text)):
            for old, new in self.argmap.items():
                text = re.sub(r"(?<![\w.'-])" + re.escape(m.group(1)) + r"\." + re.escape(old) + r"(?![\w'-])", m.group(1) + "." + new, text)
        return text


def inline_records(fn, text, alias):
    """lts.After-x as today's record names; the names that have to come from Goals are collected."""
    used = set()

    def one(m):
        old = m.group(1)
        for p in fn.order:
            if norm(p) == norm(old):
                used.add(fn.newplace[p])
                return fn.newplace[p]
        fn.left.append(f"{fn.key}: no record {old}")
        return m.group(0)

    return re.sub(r"\b" + re.escape(alias) + r"\.([A-Z][^\s(){},]*)", one, text), used


def binders(clause, name):
    m = re.match(r"^" + re.escape(name) + r"((?:\s+[^\s=]+)*?)\s*=", clause, re.S)
    return m.group(1).split() if m else None


def convert(fn, decls, lts, landed_needs, out):
    """The declarations of one function: fills out['inv'], out['ans'], out['records']."""
    v = fn.v
    stem = fn.stem
    loops = v["loops"]
    goals = [d for d in decls if NEED.search("\n".join(d.sig)) and len(NEED.findall("\n".join(d.sig))) == 1]
    helpers_known = {}
    positional = len(goals) == len(fn.needs)
    used_need = set()
    nth_loop = 0
    nth_meas = 0
    gi = 0
    for d in decls:
        sig = "\n".join(d.sig)
        body = "\n".join(d.body)
        mi = re.search(r"(?:tie|[\w+-]*lts)\.(?:invariant|InvT)[-_]", sig)
        mm = re.search(r"(?:tie|[\w+-]*lts)\.(?:decreases|MeasureT)[-_]", sig)
        if mi or mm:
            n = nth_loop if mi else nth_meas
            if mi:
                nth_loop += 1
            else:
                nth_meas += 1
            (old, new), names = loops[n]
            changed = v["changed"][n]
            ps = binders(body, d.name)
            terms = [("l.initial." if c else "l.") + x for x, c in zip(names, changed)] + ["l." + x for x, c in zip(names, changed) if c]
            if ps is None or len(ps) != len(terms):
                fn.left.append(f"{fn.key}: invariant {d.name} has other parameters")
                terms = (terms + ["l.UNKNOWN"] * 50)[:len(ps or [])]
            text = body.split("=", 1)[1].strip()
            table = dict(zip(ps, terms))
            text = re.sub(r"(?<![\w.'₀-])([^\s(){}\[\],;.:λ]+)", lambda m: table.get(m.group(1), m.group(1)), text)
            text = re.sub(r"([{;]) l\.(\w+) = ", r"\1 \2 = ", text)
            kind = "invariant" if mi else "decreases"
            out["inv"].append(f"abbrev pub {kind}-{stem}{new} : goal.{kind}-{stem}{new}\n" + "".join(u + "\n" for u in d.unfold) + f"{kind}-{stem}{new} l = {text}\n")
            continue
        if d in goals:
            want = norm(NEED.search(sig).group(1))
            orig = norm(landed_needs.get(d.name) or landed_needs.get(norm(d.name)) or "")
            orig = re.sub(r"-holds(?=-\d+$|$)", "-init", orig)
            orig = re.sub(r"-less(?=-\d+$|$)", "-smaller", orig)
            orig = re.sub(r"-again(?=-\d+$|$)", "-preserved", orig)
            idx = None
            if positional:
                idx = gi
            gi += 1
            for i, (o, n) in enumerate(fn.needs):
                if idx is None and i not in used_need and norm(o) in (want, orig):
                    idx = i
            if idx is None:
                for i, (o, n) in enumerate(fn.needs):
                    if i not in used_need and re.sub(r"^(overflow-|slice-)?", "", want) == norm(o):
                        idx = i
            if idx is None:
                if want.startswith("slice-aggregate"):
                    continue
                if norm(NEED.search(sig).group(1)) not in [norm(s) for s in v["settled"]]:
                    fn.left.append(f"{fn.key}: no goal {want} ({d.name})")
                    out["ans"].append("-- LEFT: no goal for this one\n" + "\n".join("-- " + l for l in d.text().split("\n")) + "\n")
                continue
            used_need.add(idx)
            old, new = fn.needs[idx]
            place = fn.asked_at[idx][0]
            ps = binders(body, d.name)
            if ps is None:
                fn.left.append(f"{fn.key}: {d.name} has clauses of another form")
                out["ans"].append(d.text() + "\n")
                continue
            ps = [p for p in ps if p != "κs"]
            term = re.split(r"=", body, maxsplit=1)[1].strip()
            if term in ("search rules", "search needs") and not d.unfold:
                continue
            c = ps[-1] if ps else "c"
            term = fn.body(term, {c: place})
            fields = v["asked"].get(old)
            cyc = fn.cycle and old.endswith("-requires") or fn.cycle and re.search(r"-requires-\d+$", old)
            callee_in_cycle = False
            if fn.cycle and "-requires" in old:
                callee = re.sub(r"-requires(-\d+)?$", "", old)
                callee_in_cycle = any(norm(callee) == norm(k) for k in out["cycle"])
            if fields and len(fields) > 1 and not callee_in_cycle:
                rec = with_fields(term, fields, callee_in_cycle)
                if rec is None:
                    fn.left.append(f"{fn.key}: {new} wants a record of {fields}")
                    term = term + f"\n-- LEFT: wants record {{ {'; '.join(f + ' = ..' for f in fields)} }}"
                else:
                    term = rec
            g = stem + new
            t, used = inline_records(fn, term, lts)
            out["records"] |= used
            out["ans"].append(f"pub {g} : goal.{g}\n" + "".join(u + "\n" for u in d.unfold) + f"{g} {' '.join(ps)} =\n    {t}\n")
            continue
        if re.search(r"\bstatement\b", sig) or d.name.endswith("_spec") or d.name.endswith("-spec"):
            continue
        if fn.cycle and re.search(r"Measures |: ℕ → In ", sig):
            continue
        # a lemma of the file's own
        env = {}
        args = split_top(sig.split(" :", 1)[1], "→")
        ps = binders(body, d.name)
        k = 0
        for a in args[:-1]:
            for mm2 in re.finditer(r"\(([^():]+) : ([^()]*)\)", a) if re.match(r"^\s*\(", a) else []:
                for nm in mm2.group(1).split():
                    r = re.match(r"^\s*" + re.escape(lts) + r"\.([A-Z]\S*)\s*$", mm2.group(2))
                    if r:
                        for p in fn.order:
                            if norm(p) == norm(r.group(1)):
                                env[nm] = p
                                if ps and k < len(ps):
                                    env[ps[k]] = p
                    k += 1
            else:
                pass
            if not re.match(r"^\s*[\({]", a):
                r = re.match(r"^\s*" + re.escape(lts) + r"\.([A-Z]\S*)\s*$", a)
                if r and ps and k < len(ps):
                    for p in fn.order:
                        if norm(p) == norm(r.group(1)):
                            env[ps[k]] = p
                k += 1
        text = d.text()
        if env:
            text = fn.body(text, env)
        text, used = inline_records(fn, text, lts)
        out["records"] |= used
        if "tie." in text:
            fn.left.append(f"{fn.key}: lemma {d.name} names tie")
        out["ans"].append(text + "\n")


GENERATED = re.compile(r"^use Rattle\.\w+\.proofs\.\S*?(?:\.(?:Statement|Tie|Reads|Lts(?:-\w+)?|Kinds|Post|Pre))?(?:\.\{[^}]*\}| as [^\s]+)?$")


def own_use(u):
    flat = re.sub(r"\s+", " ", u)
    m = re.match(r"^use (Rattle\.\w+\.proofs\.[^\s{]+?)(?:\.\{| as |$)", flat)
    if not m:
        return True
    last = m.group(1).split(".")
    return not (last[-1] in ("Statement", "Tie", "Reads", "Lts", "Kinds") or last[-1].startswith("Lts-") or last[3].startswith("+"))


def turn(root, names, commit, crate):
    left = []
    with open(os.path.join(names, "crates", crate, "names.json")) as f:
        table = json.load(f)
    pdir = os.path.join(root, "crates", crate, "proofs")
    found = sorted(os.path.relpath(d, pdir) for d, _, fs in os.walk(pdir) if "Proof.antt" in fs)
    for folder in found:
        path = os.path.join(pdir, folder, "Proof.antt")
        dotted = folder.replace("/", ".")
        text = open(path, encoding="utf-8").read()
        keys = [k for k in table if re.match(r"^Rattle-" + re.escape(crate) + r"-proofs\." + re.escape(dotted) + r"\.Lts", k)]
        if not keys:
            left.append(f"{crate}/{folder}: no names")
            continue
        uses, decls = parse(text)
        old = landed_text(commit, f"crates/{crate}/proofs/{folder}/Proof.antt")
        _, odecls = parse(old)
        need_of = {}
        onames = [(d.name, NEED.search("\n".join(d.sig))) for d in odecls]
        for (n, m), d in zip(onames, decls) if len(odecls) == len(decls) else []:
            if m:
                need_of[d.name] = m.group(1)
        out = {"inv": [], "ans": [], "records": set(), "cycle": [], "cycle_fields": {}}
        goalmod = f"Rattle.{crate}.proofs.{dotted}"
        if folder.startswith("+") and len(keys) > 0 and any(".Lts-" in k for k in keys):
            fns = {k.split(".Lts-")[1]: Fn(crate, k, table[k], left) for k in keys}
            out["cycle"] = list(fns)
            out["cycle_fields"] = {norm(n): f.pre for n, f in fns.items()}
            alias = {}
            for u in uses:
                m = re.search(r"\.Lts-([\w-]+) as (\S+)", re.sub(r"\s+", " ", u))
                if m:
                    alias[norm(m.group(1))] = m.group(2)
            measures = {}
            for d in decls:
                m = re.match(r"^μ[-_](.*)$", d.name)
                if m and "Measures" in "\n".join(d.sig):
                    measures[norm(m.group(1))] = d
            for n, fn in fns.items():
                a = alias.get(norm(n), norm(n) + "-lts")
                mine = [d for d in decls if re.search(r"(?<![\w-])" + re.escape(a) + r"\.", "\n".join(d.sig))]
                d = measures.get(norm(n))
                if d:
                    term = "\n".join(d.body).split("=", 1)[1].strip()
                    ps = table[[k for k in keys if k.endswith("-" + n)][0]].get("own_params") or []

                    def arg(m):
                        return f"l.ARG{m.group(1).count('1')}"

                    out["inv"].append(f"abbrev pub decreases-{n} : goal.decreases-{n}\ndecreases-{n} l = " + re.sub(r"\ba((?:\.1)*)\.0", arg, term) + "\n")
                convert(fn, mine, a, need_of, out)
        else:
            fn = Fn(crate, keys[0], table[keys[0]], left)
            convert(fn, decls, "lts", need_of, out)
        keep = [u for u in uses if own_use(u)]
        head = "\n".join(keep)
        if out["inv"]:
            open(os.path.join(pdir, folder, "Invariants.antt"), "w").write(head + f"\nuse {goalmod}.Given as goal\n\n" + "\n".join(out["inv"]))
        if out["ans"]:
            rec = f"\nuse {goalmod}.Goals.{{{', '.join(sorted(out['records']))}}}" if out["records"] else ""
            open(os.path.join(pdir, folder, "Answers.antt"), "w").write(head + f"\nuse {goalmod}.Goals as goal" + rec + "\n\n" + "\n".join(out["ans"]))
        os.remove(path)
    return left


def main(argv):
    names, commit, rest = argv[0], argv[1], argv[2:]
    for c in rest:
        for l in turn(".", names, commit, c):
            print(f"left: {c}: {l}")


if __name__ == "__main__":
    main(sys.argv[1:])
