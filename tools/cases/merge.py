"""Sections 6 and 7 of document 01 and its numbers 8 to 18, with wishes 1, 2 and 5 of document 02: the merge of a reading into a book, tape to tape,
and its price."""
from gen import NONE, Book, Node
from book import Refused, check_book, check_reading, drift, is_utf8, must, pool, within_limits
from graft import COUNTS, POOL, Over, added, fields, graft

WORK = 16384

# ---- section 6

def depths(nodes, floor):
    """block and warichu depth behind the nodes, and the least that either was; floor: a fall below 0 counts as 0"""
    depth, least = [0, 0], 0
    for n in nodes:
        which, step = {2: (0, 1), 3: (0, -1)}.get(n.cls) or {4: (1, 1), 5: (1, -1)}.get(n.body.tag if n.body.kind == 13 else None, (0, 0))
        depth[which] += step
        if floor: depth[which] = max(0, depth[which])
        least = min(least, depth[which])
    return depth, least

def safe_cut(b, at):
    if at in (0, len(b.text)): return True
    before = [n for n in b.nodes if n.start < at]
    return b.text[:at].endswith(b'\n\n') and all(n.end <= at for n in before) and depths(before, True)[0] == [0, 0] \
        and not any(open < at < end for _, open, _, _, end in b.pairs)

def region(b, start, end, new):
    """document 02, wish 1: an end cut other than the text's end also has two newlines before its moved place in the new text"""
    by, length = len(new) - len(b.text), len(b.text)
    def survives(c): return c == length or c + by >= 2 and new[c + by - 2:c + by] == b'\n\n'
    cuts = [i + 1 for i, c in enumerate(b.text) if c == 10 and safe_cut(b, i + 1)]
    return max([c for c in cuts if c <= start], default=0), min([c for c in cuts if c > end and survives(c)], default=length)

def as_plain(b, start, length):
    """`content_range_as_plain`: the string of a range of exactly one Plain content"""
    tag, id, _ = pool(b, 'contents')[start] if length == 1 else (1, 0, 0)
    return pool(b, 'strings')[id] if tag == 0 else None

def ruby(n): return n.cls == 0 and n.body.kind == 1
def referenced(n): return n.cls == 0 and n.body.kind == 2 and n.body.tag // 4 == 1
def plains(b, nodes): return {as_plain(b, *n.body.words[:2]) for n in nodes} - {None}

def has_ruby_format_dependency(b, edit):
    return any(plains(b, [f]) & plains(b, filter(ruby, b.nodes[:i])) for i, f in enumerate(b.nodes) if referenced(f) and f.end > edit)

def introduces_ruby_format_dependency(old, reading, start, end):
    if any(map(ruby, reading.nodes)) and any(referenced(n) for n in old.nodes if n.start >= end): return True
    rubies = plains(old, [n for n in old.nodes if ruby(n) and n.end <= start])
    return bool(rubies & plains(reading, filter(referenced, reading.nodes)))

def choose(old, start, end, replacement):
    """8 to 11: the region and the new text"""
    inside = lambda at: at < len(old.text) and old.text[at] & 0xc0 == 0x80
    must(8, start <= end <= len(old.text) and not inside(start) and not inside(end))
    must(2, is_utf8(replacement))
    new = old.text[:start] + replacement + old.text[end:]
    must(3, len(new) <= 16777215)
    must(9, new != old.text)
    must(10, not has_ruby_format_dependency(old, start))
    chosen = region(old, start, end, new)
    must(11, chosen != (0, len(old.text)))
    return chosen, new

# ---- section 7

def normalized(b, cut): return cut + drift([n for n in b.nodes if n.end <= cut])
def shifted(n, source, norm, body): return Node(n.cls, n.inline, n.start + source, n.end + source, n.off + norm, body)

def key(d): return d[2], d[3], d[1]  # of a diagnostic: start, end, code rank

def spliced(old, reading, nodes, layer, text, start, end):
    """the merged book; nodes and layer: those of the reading, grafted; layer None: no new one"""
    ns, ne = normalized(old, start), normalized(old, end)
    by, nby = len(text) - len(old.text), len(reading.norm) - (ne - ns)
    b = Book(text)
    b.norm = old.norm[:ns] + reading.norm + old.norm[ne:]
    b.layers = old.layers + ([] if layer is None else [layer])
    b.nodes = [n for n in old.nodes if n.end <= start] + [shifted(n, start, ns, n.body) for n in nodes] + [shifted(n, by, nby, n.body) for n in old.nodes if n.start >= end]
    def moved(records, by): return [(p, a + by, e + by, *(x + by for x in rest)) for p, a, e, *rest in records]
    b.pairs = [p for p in old.pairs if p[4] <= start] + moved(reading.pairs, start) + moved([p for p in old.pairs if p[1] >= end], by)
    b.containers = [c for c in old.containers if c[2] < ns] + moved(reading.containers, ns) + moved([c for c in old.containers if c[1] >= ne], nby)
    def told(diags, by): return [(k, rank, a + by, e + by, plain) for k, rank, a, e, plain in diags]
    # document 02, wish 5: a mark at or before the region's start counts as before it, otherwise one at or behind its end as behind
    before, behind = [d for d in old.diags if d[3] <= start], [d for d in old.diags if d[3] > start and d[2] >= end]
    b.diags = before + told(reading.diags, start) + told(behind, by)
    b.diags.sort(key=key)
    return b

def marks_at(b, at):
    """document 02, wish 5: the diagnostics of no width that lie there, of any kind"""
    return [d for d in b.diags if d[2] == d[3] == at]

def fitted(tape, data, start, end, replacement, rtape, rdata):
    """1 to 17: the book, the reading, the new text and the region"""
    old = check_book(tape, data)
    (first, last), text = choose(old, start, end, replacement)
    reading = check_reading(rtape, rdata)
    must(12, reading.text == text[first:last + len(text) - len(old.text)])
    must(13, depths(reading.nodes, False) == ([0, 0], 0))
    must(14, all(d[0] not in (2, 3) for d in reading.diags))
    must(14, first < last or not marks_at(old, first))  # document 02, wish 5: nothing tells on which side of the new text it belongs
    must(15, not introduces_ruby_format_dependency(old, reading, first, last))
    must(16, all(is_utf8(old.norm[:normalized(old, cut)]) for cut in (first, last)))
    must(17, not reading.nodes or len(old.layers) < 32)
    return old, reading, text, first, last

def merge(tape, data, start, end, replacement, rtape, rdata, room=(65536, 65536, WORK)):
    """the result's tape and bytes, and (region start, end, reused, reread, the seven counts); or Refused. room: bytes for both, work words"""
    old, reading, text, first, last = fitted(tape, data, start, end, replacement, rtape, rdata)
    nodes, layer, counts = [], None, [0] * len(COUNTS)
    if reading.nodes:
        try: nodes, g = graft(reading, *(len(pool(old, p)) for p in ('strings', 'contents', 'segments')))
        except Over: raise Refused(18)
        layer, counts = g.layer, list(g.interner.stats.values())
    b = spliced(old, reading, nodes, layer, text, first, last)
    must(18, within_limits(b) and len(b.tape()) <= room[0] and len(b.bytes()) <= room[1] and WORK <= room[2])
    reused = len(b.nodes) - len(nodes)
    return b.tape(), b.bytes(), (first, last, reused, len(nodes), counts)

# ---- document 02, wish 2

def estimate(*case):
    """reread nodes, intern calls, contents and segments added, the length of the byte buffer without the new layer's strings; or Refused, 1 to 17"""
    old, reading, text, first, last = fitted(*case)
    counts = added(reading)
    if max(counts) > POOL: counts = [POOL + 1] * 3
    return (len(reading.nodes), *counts, len(spliced(old, reading, [], None, text, first, last).bytes()))

# ---- demand 3: equal books

def shown(b):
    """a book as it is compared: an id as its string, a range as the list of items that it names"""
    strings, contents, segments = (pool(b, p) for p in ('strings', 'contents', 'segments'))
    def string(id): return None if id == NONE else strings[id]
    def segment_range(start, length): return [(s.tag, s.level, body(s.body)) for s in segments[start:start + length]]
    def content(tag, a, n): return string(a) if tag == 0 else segment_range(a, n)
    def field(form, words):
        if form == 'contents': return [content(*c) for c in contents[words[0]:words[0] + words[1]]]
        return segment_range(*words[:2]) if form == 'segments' else string(words[0])
    def body(x): return x.kind, x.tag, x.plain, [field(form, x.words[i:]) for form, i in fields(x)]
    nodes = [(n.cls, n.inline, n.start, n.end, n.off, body(n.body) if n.cls < 2 else n.body.plain) for n in b.nodes]
    return b.text, b.norm, nodes, b.pairs, b.containers, b.diags

# ---- Runs: the program `merge`

PART = 65536

def line(answer):
    start, end, reused, reread, counts = answer
    return 'region %d %d reused %d reread %d calls %d probes %d' % (start, end, reused, reread, counts[0], counts[6])

def program(data):
    """its input to its line"""
    try:
        must(1, len(data) >= 28)
        head = [int.from_bytes(data[i:i + 4], 'little') for i in range(0, 28, 4)]
        parts, at = [], 28
        must(3, all(head[i] <= PART for i in (0, 1, 4, 5, 6)))
        for i in (0, 1, 4, 5, 6):
            parts.append(data[at:at + head[i]])
            at += head[i]
        must(1, at == len(data))
        return line(merge(parts[0], parts[1], head[2], head[3], *parts[2:])[2])
    except Refused as r: return 'refused %d' % r.number
