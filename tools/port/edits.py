#!/usr/bin/env python3
"""Brings the must-fail edits of an older Rattle to today's spelling, once, behind port.py and names.py.

usage: edits.py batches OLD TO      OLD: a checkout of the tree before port.py. Sorts its edits into batches of which no two touch one
                                    neighbourhood, and makes TO/0, TO/1, ..: git clones of OLD with a batch's edits made, and committed
       edits.py turn TO/N           runs port.py and names.py there
       edits.py write OLD           writes the edits of the table NEW into this repository
       edits.py check OLD TO        of each edit here: old stands once, new is another, and the edited file has the text, layout aside,
                                    that stands in TO/N at that place; and that nothing else differs from TO/N

Run once, at the commit that names this script; later commits moved theorems of specs/ to proofs/, and some edits' files with them.
"""
import collections
import difflib
import glob
import json
import os
import re
import shutil
import subprocess
import sys

APART = 3


def edit_of(path):
    """[(file, old, new)] of an edit file."""
    pairs, file, old = [], None, None
    with open(path, encoding="utf-8") as f:
        for l in f.read().split("\n"):
            if l.startswith("file: "):
                file = l[6:]
            elif l.startswith("old: "):
                old = l[5:]
            elif l.startswith("new: "):
                pairs.append((file, old, l[5:]))
    return pairs


def edits(root):
    """{'crate/name': pairs}"""
    out = {}
    for p in sorted(glob.glob(os.path.join(root, "crates", "*", "must-fail", "*.edit"))):
        crate, name = p.split(os.sep)[-3], os.path.basename(p)[:-5]
        out[crate + "/" + name] = [(os.path.join("crates", crate, f), o, n) for f, o, n in edit_of(p)]
    return out


def made(root, pairs):
    """{file: text with the edit made}"""
    out = {}
    for f, o, n in pairs:
        if f not in out:
            with open(os.path.join(root, f), encoding="utf-8") as it:
                out[f] = it.read()
        if out[f].count(o) != 1:
            raise ValueError(f"{f}: stands {out[f].count(o)} times: {o}")
        out[f] = out[f].replace(o, n, 1)
    return out


def changes(a, b):
    """[(from, to, lines)]: lines `from` to `to` of a are others in b."""
    ops = difflib.SequenceMatcher(None, a, b, autojunk=False).get_opcodes()
    return [(i1, i2, b[j1:j2]) for tag, i1, i2, j1, j2 in ops if tag != "equal"]


def touched(root, pairs):
    """{file: the lines that the edit changes}, counted in the file as it stands."""
    out = {}
    for f, text in made(root, pairs).items():
        with open(os.path.join(root, f), encoding="utf-8") as it:
            a = it.read().split("\n")
        out[f] = {i for i1, i2, _ in changes(a, text.split("\n")) for i in range(i1, max(i2, i1 + 1))}
    return out


def git(where, *words):
    subprocess.run(["git", *words], cwd=where, check=True, stdout=subprocess.DEVNULL)


def batches(old, to):
    all_edits = edits(old)
    taken, plan = [], []
    for name, pairs in all_edits.items():
        t = touched(old, pairs)
        for k in range(len(all_edits)):
            if k == len(taken):
                taken.append(collections.defaultdict(set))
                plan.append([])
            if all(abs(a - b) > APART for f in t for a in t[f] for b in taken[k][f]):
                break
        for f in t:
            taken[k][f] |= t[f]
        plan[k].append(name)
    os.makedirs(to, exist_ok=True)
    with open(os.path.join(to, "plan.json"), "w") as f:
        json.dump(plan, f, indent=1)
    for k, names in enumerate(plan):
        where = os.path.join(to, str(k))
        if os.path.exists(where):
            continue
        subprocess.run(["git", "clone", "-q", "--no-hardlinks", old, where], check=True)
        hunks = collections.defaultdict(list)
        for name in names:
            for f, text in made(where, all_edits[name]).items():
                with open(os.path.join(where, f), encoding="utf-8") as it:
                    hunks[f] += changes(it.read().split("\n"), text.split("\n"))
        for f, hs in hunks.items():
            with open(os.path.join(where, f), encoding="utf-8") as it:
                lines = it.read().split("\n")
            for i1, i2, new in sorted(hs, reverse=True):
                lines[i1:i2] = new
            with open(os.path.join(where, f), "w", encoding="utf-8") as it:
                it.write("\n".join(lines))
        git(where, "-c", "user.name=x", "-c", "user.email=x@x", "commit", "-qam", f"batch {k}")
        print(k, len(names), "edits")


def turn(where, here):
    sys.dont_write_bytecode = True
    sys.path.insert(0, "/opt/rattle/port")
    import port
    port.SAID = where + ".port-said"
    os.chdir(where)
    port.main([])
    sys.path.insert(0, os.path.join(here, "tools", "port"))
    import names
    # the same in each batch: no edit declares a name or takes one away
    with open(where + ".declared.json", "w") as f:
        json.dump(sorted(names.declared(where)), f)
    return names.main([where])


# The edits whose texts have another spelling now: their pairs, in the order in which they stand. All others stand as they were.
NEW = {
    "balanced_region/lost_blank_line_not_passed": [
        None,
        ("add-result : tie.Need-overflow-add-result", "--"),
        ("add-result c = search rules", "--"),
        ("returns_2 add-result returns-3", "returns_2 returns-3"),
    ],
    "balanced_region/newline_taken_for_granted": [
        None,
        ("sub-result : tie.Need-overflow-sub-result", "--"),
        ("sub-result c = search rules", "--"),
        None,
        ("shared-slice-read-result c = search rules", "--"),
        ("c.before.if1.true", "c.if1.true"),
        None,
        None,
    ],
    "book_answers/contents_for_segments": [
        None,
        ("Rattle.lookup.proofs.lookup_segments.Reads", "Rattle.lookup.proofs.lookup_contents.Reads"),
        None,
        ("c.before.lookup-segments.ensures", "c.before.lookup-contents.ensures"),
    ],
    "commute/cuts_up_to_the_end": [
        ("nodes_before_lem : (o : ℕ) → o ≤ r.start → nodes_allow_cut", "nodes_before_lem : (o : ℕ) → o ≤ r.end → nodes_allow_cut"),
    ],
    "commute/every_string_number": [
        ("id < sum (string_counts book.layers)", "id < sum (string_counts commutes.final₁.layers)"),
    ],
    "commute/ids_equal": [
        (
            "equal_nodes : shown_nodes commutes.final₁ ≡ shown_nodes commutes.final₂",
            "equal_nodes : commutes.final₁.source_nodes ≡ commutes.final₂.source_nodes",
        ),
    ],
    "commute/later_region_not_moved": [
        (
            "orders.later_second.region ≡ region_behind earlier.edit orders.later_first.region",
            "orders.later_second.region ≡ orders.later_first.region",
        ),
    ],
    "commute/regions_may_overlap": [("pub apart : r_e.end ≤ r_l.start", "pub apart : r_e.start ≤ r_l.start")],
    "commute/total_plus_one": [
        (
            "≡ orders.later_first.reparsed_nodes + orders.earlier_second.reparsed_nodes",
            "≡ orders.later_first.reparsed_nodes + orders.earlier_second.reparsed_nodes + 1",
        ),
    ],
    "diagnostic_slice/equal_keys_exchanged": [
        (
            "in cond (not_behind (numbered t at v) (numbered t at w)) (v ∷ w ∷ l) later",
            "in cond (not_behind (numbered t at w) (numbered t at v)) later (v ∷ w ∷ l)",
        ),
    ],
    "exports/bytes_of_the_old_book": [
        ("(record { tape = readingtape.now; bytes = readingbytes.now })", "(record { tape = readingtape.now; bytes = bytes.now })"),
    ],
    "exports/price_from_the_end": [
        ("(edit_of start end replacement.now) (stored_of", "(edit_of end start replacement.now) (stored_of"),
    ],
    "exports/price_of_the_replacement": [
        ("(stored_of readingtape.now readingbytes.now)))", "(stored_of readingtape.now replacement.now)))"),
    ],
    "laws/calls_of_the_book": [
        (
            "merge s e rs room ≡ accepted m → Ceiling (reading_calls rs) m.stats",
            "merge s e rs room ≡ accepted m → Ceiling (reading_calls s) m.stats",
        ),
    ],
    "laws/empty_slot_not_counted": [
        ("  pub most : p.steps ≤ k + taken_from n m t at + 1", "  pub most : p.steps ≤ k + taken_from n m t at + 0"),
    ],
    "laws/layers_in_front": [
        ("(e : later.layers ≡ first.layers ++ more) (ids", "(e : later.layers ≡ more ++ first.layers) (ids"),
    ],
    "lookup/contents_where_segments_stand": [
        None,
        None,
        ("c.content-place.ensures", "c.segment-place.ensures"),
    ],
    "model/calls_not_over": [
        (
            "is_over calls contents segments = ltb max_pool calls || ltb max_pool contents",
            "is_over calls contents segments = ltb max_pool contents",
        ),
    ],
    "model/container_at_the_start": [("end = suc c.closing };", "end = c.closing };")],
    "model/diagnostics_not_sorted": [
        (
            "sort_diagnostics (spliced diagnostic_located w old.diagnostics reading.diagnostics);",
            "spliced diagnostic_located w old.diagnostics reading.diagnostics;",
        ),
    ],
    "model/end_at_the_edit": [
        (
            "region_end b e (length b.sanitized - e.end) e.end;",
            "region_end b e (suc (length b.sanitized) - e.end) (e.end - 1);",
        ),
    ],
    "model/end_cut_not_moved": [
        ("blank_line_before (edited b.sanitized e) (behind_edit e o))", "blank_line_before (edited b.sanitized e) o)"),
    ],
    "model/end_cut_of_the_old_text": [
        ("blank_line_before (edited b.sanitized e) (behind_edit e o))", "blank_line_before b.sanitized o)"),
    ],
    "model/equal_keys_turned": [("leb d.code_rank e.code_rank", "ltb d.code_rank e.code_rank")],
    "model/grows_only_on_a_miss": [
        (
            "(table_call t (table_for t) s))",
            "(table_call t (cond (eqb (probe (length t.table) t.strings t.table s (fx_hash s % length t.table) 0).slot 0) (table_for t) t.table) s))",
        ),
    ],
    "model/growth_counted": [
        (
            "table_hits = 1; allocs = 0; long_bypass = 0; resizes = resized; probe_steps = p.steps });",
            "table_hits = 1; allocs = 0; long_bypass = 0; resizes = resized; probe_steps = p.steps + resized * t.occupied });",
        ),
    ],
    "model/hint_before_mencode": [("(mencode_fields tag ++ (str 0 ∷ []))", "((str 0 ∷ []) ++ mencode_fields tag)")],
    "model/level_of_text": [("(eqb s.level 0)", "(leb s.level 1)")],
    "model/lost_id_as_empty": [
        ("use Rattle.model.specs.Store.{store_of, content_counts", "use Rattle.model.specs.Store.{resolve_str, store_of, content_counts"),
        ("lookup_str b id = get_elem? (store_of b.layers).strings id", "lookup_str b id = some (resolve_str (store_of b.layers) id)"),
    ],
    "model/missing_anywhere": [
        (
            "field_ok ls b (str i) = id_ok (string_counts ls) (word_of b i)",
            "field_ok ls b (str i) = eqb (word_of b i) no_string || id_ok (string_counts ls) (word_of b i)",
        ),
    ],
    "model/moved_by_the_source_delta": [
        (
            "normalized_offset = moved_offset n.normalized_offset w.normalized_delta;",
            "normalized_offset = moved_offset n.normalized_offset w.source_delta;",
        ),
    ],
    "model/no_layer_without_strings": [
        ("cond (is_empty reading.source_nodes) old.layers", "cond (is_empty f.interner.strings) old.layers"),
    ],
    "model/old_strings_left_out": [(" + length (flatten (map (λ (l : Layer). flatten l.strings) old.layers))", "")],
    "model/reading_of_more_layers": [("not (eqb (length b.layers) 1)", "not (leb 1 (length b.layers))")],
    "model/reading_strings_in_the_length": [
        ("(λ (l : Layer). flatten l.strings) old.layers))", "(λ (l : Layer). flatten l.strings) reading.layers))"),
    ],
    "model/seventeen_before_sixteen": [
        (
            "refuse 17 if not (is_empty reading.source_nodes) && leb max_layers (length old.layers)",
            "refuse 16 if not  (cuts_ok old w)",
        ),
        (
            "refuse 16 if not (cuts_ok old w)",
            "refuse 17 if not (is_empty reading.source_nodes) && leb max_layers (length old.layers)",
        ),
    ],
    "model/short_below_64": [
        ("is_short s = leb (length s) intern_length_limit", "is_short s = leb (suc (length s)) intern_length_limit"),
    ],
    "model/strings_of_older_layers": [
        (
            "  interner = fresh_interner;",
            "  interner = record { strings = mathlib.Core.List.flatten (mathlib.Core.List.map (λ (l : Layer). l.strings) ls); table = []; occupied = 0; last = sum (string_counts ls); stats = fresh_interner.stats };",
        ),
    ],
    "model/work_words_only_to_graft": [
        ("&& leb min_work_words room.work_words", "&& (is_empty g.0 || leb min_work_words room.work_words)"),
    ],
    "records/mencode_with_tag_1": [("mencode_uses tag = cond (eqb tag 2) 17 1", "mencode_uses tag = cond (eqb tag 1) 17 1")],
    "stats/long_not_counted": [("longbypass = t.longbypass + 1;", "longbypass = t.longbypass;")],
    "stats/steps_for_resized": [
        (
            "plus_table_hit (plus_probes (plus_resizes (plus_call t) resized) steps)",
            "plus_table_hit (plus_probes (plus_resizes (plus_call t) steps) resized)",
        ),
    ],
}


def write(old, here):
    for name, pairs in NEW.items():
        crate, edit = name.split("/")
        rest = iter(pairs)
        out = []
        with open(os.path.join(old, "crates", crate, "must-fail", edit + ".edit"), encoding="utf-8") as f:
            for l in f.read().split("\n"):
                if l.startswith("old: "):
                    pair = next(rest)
                if pair_word := re.match(r"(old|new): ", l):
                    if pair:
                        l = pair_word[0] + pair[pair_word[1] == "new"]
                out.append(l)
        assert next(rest, "none") == "none", name
        with open(os.path.join(here, "crates", crate, "must-fail", edit + ".edit"), "w", encoding="utf-8") as f:
            f.write("\n".join(out))
    print(len(NEW), "edits written")


def bare(text):
    """A text without its layout, and names by path as without it: a name that only an edit uses is written with its path."""
    text = re.sub(r"(?m)^use (Rattle\.std\.specs\.Prelude|mathlib\.Core\.List)\..*\n", "", text).replace("mathlib.Core.List.", "")
    return re.sub(r",(?=[)}\]])", "", re.sub(r"\s+", "", text))


def read(path):
    with open(path, encoding="utf-8") as f:
        return f.read()


def check(old, to, here):
    was, now = edits(old), edits(here)
    with open(os.path.join(to, "plan.json")) as f:
        plan = json.load(f)
    faults = 0

    def fault(name, text):
        nonlocal faults
        faults += 1
        print(f"{name}: {text}")

    if list(was) != list(now):
        fault("all", "not the same edits")
    for k, names in enumerate(plan):
        hunks = collections.defaultdict(list)
        for name in names:
            pairs = now.get(name, [])
            if [f for f, _, _ in pairs] != [f for f, _, _ in was[name]]:
                fault(name, "other files, or another number of pairs")
            if any(o == n for _, o, n in pairs):
                fault(name, "old is new")
            crate, edit = name.split("/")
            rest = [[l for l in read(os.path.join(root, "crates", crate, "must-fail", edit + ".edit")).split("\n") if not re.match("(old|new): ", l)] for root in (old, here)]
            if rest[0] != rest[1]:
                fault(name, "other comments")
            try:
                for f, text in made(here, pairs).items():
                    hunks[f] += changes(read(os.path.join(here, f)).split("\n"), text.split("\n"))
            except (ValueError, OSError) as e:
                fault(name, str(e))
        # all of the batch's edits made here, beside what the scripts made of them there
        files = subprocess.run(["git", "ls-files", "crates"], cwd=here, capture_output=True, text=True, check=True).stdout.split("\n")
        for f in files:
            if f.endswith((".rt", ".antt")) and "/out/" not in f:
                lines = read(os.path.join(here, f)).split("\n")
                for i1, i2, new in sorted(hunks[f], reverse=True):
                    lines[i1:i2] = new
                there = read(os.path.join(to, str(k), f)) if os.path.exists(os.path.join(to, str(k), f)) else ""
                if bare("\n".join(lines)) != bare(there):
                    fault(f"batch {k}, {f}", "not what the scripts make of it: " + "; ".join(
                        " ".join(a).strip()[:160] + " -> " + " ".join(b).strip()[:160] for a, b in
                        [(lines[i1:i2], new) for i1, i2, new in changes(lines, there.split("\n"))] if bare("".join(a)) != bare("".join(b))))
    print(f"{len(now)} edits, {sum(len(p) for p in now.values())} pairs, {faults} faults")
    return faults > 0


if __name__ == "__main__":
    word = sys.argv[1] if len(sys.argv) > 1 else ""
    here = os.path.dirname(os.path.dirname(os.path.dirname(os.path.realpath(__file__))))
    if word == "batches":
        batches(*map(os.path.abspath, sys.argv[2:4]))
    elif word == "turn":
        turn(os.path.abspath(sys.argv[2]), here)
    elif word == "write":
        write(os.path.abspath(sys.argv[2]), here)
    elif word == "check":
        raise SystemExit(check(*map(os.path.abspath, sys.argv[2:4]), here))
    else:
        print(__doc__)
