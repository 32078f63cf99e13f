"""The program `inspect` as docs/FORMAT.md has it: the passage of an edit and the lines of a book, a line a record, or the number that
refuses the input."""
from gen import NONE, W
from book import Refused, check_book, must, pool
from graft import fields
from merge import choose

PART = 65536
TAGS = ['Text', 'Gaiji', 'Directive', 'Node']
CLASSES = ['Inline', 'BlockLeaf', 'BlockOpen', 'BlockClose']
PAIRS = ['Bracket', 'Ruby', 'AngleQuote', 'Tortoise', 'Quote']
DIAGNOSTICS = ['UnresolvedGaiji', 'NonCanonicalDirective', 'UnclosedBracket', 'UnmatchedClose', 'Other']
KINDS = ['text', 'Ruby', 'Format', 'Gaiji', 'Line', 'PageBreak', 'SectionBreak', 'BodyEnd', 'ForcedBreak', 'Heading', 'HeadingHint', 'Illustration', 'Kaeriten',
         'Directive', 'AngleQuote', 'MarginNote']
# what a field is called, by its kind and the place of its first word
NAMES = {0: {0: 'string'}, 1: {0: 'base', 2: 'reading'}, 2: {0: 'target', 2: 'payload'}, 3: {0: 'hint', 1: 'mencode'}, 9: {0: 'text'}, 10: {0: 'target'},
         11: {0: 'file', 1: 'number', 2: 'dimensions', 3: 'description', 4: 'caption'}, 12: {0: 'mark'}, 13: {0: 'raw'}, 14: {0: 'content'}, 15: {0: 'base', 2: 'note'}}

def quoted(s):
    escapes = {10: b'\\n', 34: b'\\"', 92: b'\\\\'}
    return b'"' + b''.join(escapes.get(c) or (b'\\x%02x' % c if c < 32 or c == 127 else bytes([c])) for c in s) + b'"'

def string(b, id): return b'none' if id == NONE else b'%d %s' % (id, quoted(pool(b, 'strings')[id]))

def body(b, x):
    out = b'%s tag %d plain %d %d' % (KINDS[x.kind].encode(), x.tag, *x.plain)
    for form, i in sorted(fields(x), key=lambda f: f[1]):
        shown = b'%d %d' % tuple(x.words[i:i + 2]) if form in ('contents', 'segments') else string(b, x.words[i])
        out += b' %s %s' % (NAMES[x.kind][i].encode(), shown)
    return out

def head(b, region):
    line = b'text %d normalized %d ' % (len(b.text), len(b.norm))
    if region is None: return line + quoted(b.text)
    start, end = region
    return line + b'region %d %d ' % region + b' | '.join(map(quoted, [b.text[:start], b.text[start:end], b.text[end:]]))

def passage(b, start, end): return b'passage %d %d ' % (start, end) + quoted(b.text[start:end])

def content(b, tag, first, second): return b'plain ' + string(b, first) if tag == 0 else b'segments %d %d' % (first, second)

def node(b, n):
    place = b'%d..%d at %d ' % (n.start, n.end, n.off)
    if n.cls < 2: return CLASSES[n.cls].encode() + b' ' + place + body(b, n.body)
    return b'%s inline %d ' % (CLASSES[n.cls].encode(), n.inline) + place + b'plain %d %d' % tuple(n.body.plain)

def lines(b, region):
    seen = {}
    def line(name, text=None):
        seen[name] = seen.get(name, -1) + 1
        return b'%s %d' % (name, seen[name]) + (b'' if text is None else b' ' + text)
    if region is not None: yield passage(b, *region)
    yield head(b, region)
    for l in b.layers:
        yield line(b'layer')
        yield from (line(b'string', quoted(s)) for s in l.strings)
        yield from (line(b'content', content(b, *c)) for c in l.contents)
        yield from (line(b'segment', b'%s level %d ' % (TAGS[s.tag].encode(), s.level) + body(b, s.body)) for s in l.segments)
    yield from (line(b'node', node(b, n)) for n in b.nodes)
    yield from (line(b'pair', b'%s %d..%d %d..%d' % (PAIRS[k].encode(), *places)) for k, *places in b.pairs)
    yield from (line(b'container', b'plain %d open %d close %d' % tuple(c)) for c in b.containers)
    yield from (line(b'diagnostic', b'%s code %d %d..%d plain %d' % (DIAGNOSTICS[k].encode(), *rest)) for k, *rest in b.diags)
    yield b'end'

def given(tape, data, edit=None):
    """the program's input; an edit is start, end, replacement"""
    out = W(len(tape)) + W(len(data)) + tape + data
    return out if edit is None else out + W(edit[0]) + W(edit[1]) + W(len(edit[2])) + edit[2]

def shown(data):
    word = lambda at: int.from_bytes(data[at:at + 4], 'little')
    must(1, 8 <= len(data))
    must(3, word(0) <= PART and word(4) <= PART)
    at = 8 + word(0) + word(4)
    book = lambda: check_book(data[8:8 + word(0)], data[8 + word(0):at])
    if len(data) == at: return lines(book(), None)
    must(1, at + 12 <= len(data))
    must(3, word(at + 8) <= PART)
    must(1, len(data) == at + 12 + word(at + 8))
    b = book()
    return lines(b, choose(b, word(at), word(at + 4), data[at + 12:])[0])

def printed(data):
    """what the program prints for an input"""
    try: return b''.join(l + b'\n' for l in shown(data))
    except Refused as r: return b'refused %d\n' % r.number
