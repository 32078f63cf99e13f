"""Cases of wish 4 of document 02, rereads by desk: label, the number (0: accepted), the desk's total behind an accepted call, desk, ledger, old book,
edit, replacement, reading, and the room that is lent. A case with a ledger begins a list; one without (None) has the ledger that the case
before left, and where it has no book either, its book: that of the last accepted call, or the list's first."""
from small import *
from book import Refused, check_book
from desk import DESKS, MOST, merge_for_desk
from merge import WORK, shown
from merge_cases import ROOM, around, joined, layers
from tape_cases import but, nest
import merge_cases

cases = []
def case(label, told, desk, ledger, old, start, end, replacement, reading, room=ROOM):
    """told: Refused, or the total"""
    number, total = (told.number, None) if isinstance(told, Refused) else (0, told)
    cases.append((label, number, total, desk, ledger, old, start, end, replacement, reading, room))

# ---- ledgers
def zeros(n=DESKS): return [0] * n
def full(n=DESKS): return [MOST] * n
def but_for(ledger, totals): return [totals.get(i, t) for i, t in enumerate(ledger)]
def only(totals): return but_for(zeros(), totals)
def counted(): return but_for(range(DESKS), {3: MOST - 1})

# ---- corrections: of the three passages of P5's book, by readings with so many nodes at their start
def leaves(text, nodes): return book(text, nodes=[leaf(i, i + 1, 5) for i in range(nodes)])
def first(nodes, letter='x'): return 0, 1, letter.encode(), leaves(letter + 'a\n\n', nodes)
def second(nodes, letter='x'): return 4, 5, letter.encode(), leaves(letter + 'b\n\n', nodes)
def third(nodes, letter='x'): return 8, 9, letter.encode(), leaves(letter + 'c', nodes)
p5 = 4, 5, b'x', ruby()
same = 4, 5, b'b', plain('bb\n\n')  # 9
unlike = 8, 9, b'x', plain('xd')  # 12
def on_abc(label, told, desk, ledger, correction=p5, **more): case(label, told, desk, ledger, plain(abc), *correction, **more)

# ---- first and last desk
for desk in (0, 3, 63): on_abc('P5, desk %d' % desk, 1, desk, zeros())
on_abc('desk 0 of a ledger with a total everywhere', 1, 0, counted())
on_abc('desk 63 of a ledger with a total everywhere', 64, 63, counted())
on_abc('both buffers full', 1, 63, zeros(), room=(91, 23, WORK))

# ---- 19: desk above 63, or a ledger without exactly 64 totals
for desk in (64, 256, 65536 + 3, 2**31, MOST): on_abc('19 desk %d' % desk, Refused(19), desk, only({0: 1, 3: 2, 63: 3}))
for n in (0, 1, 63, 65, 128): on_abc('19 ledger of %d' % n, Refused(19), 0, [7] * n)
on_abc('19 ledger of 65, its last desk', Refused(19), 64, [7] * 65)
on_abc('19 ledger of 63, desk 63', Refused(19), 63, [7] * 63)
on_abc('19 ledger of 4, desk 3', Refused(19), 3, [1, 2, 3, 4])
# before all else
case('19 before 1, desk 64', Refused(19), 64, zeros(), but(plain(abc), layers=[]), *p5)
case('19 before 1, ledger of 63', Refused(19), 63, zeros(63), but(plain(abc), layers=[]), *p5)
case('19 before 1, ledger of 65', Refused(19), 63, zeros(65), but(plain(abc), layers=[]), *p5)
case('19 before 1, desk 4294967295', Refused(19), MOST, zeros(), but(plain(abc), layers=[]), *p5)
case('1 desk 63', Refused(1), 63, zeros(), but(plain(abc), layers=[]), *p5)
case('19 before 8', Refused(19), 64, zeros(), plain(abc), 5, 4, b'x', ruby())
case('19 before 17', Refused(19), 64, zeros(), layers(plain(abc), 32), *p5)
on_abc('19 before 18, no room at all', Refused(19), 64, zeros(), room=(0, 0, 0))
on_abc('19 before 20, desk 64', Refused(19), 64, full())
on_abc('19 before 20, ledger of 65', Refused(19), 3, full(65))
on_abc('19 with a reading without nodes', Refused(19), 64, zeros(), second(0))

# ---- each number 1 to 17 before 20; the ledger is kept
for number in range(1, 18):
    label, _, old, *rest, room = next(c for c in merge_cases.cases if c[1] == number)
    case('%s, a full total' % label, Refused(number), number, but_for(only({0: 1, 63: 2}), {number: MOST}), old, *rest)

# ---- 20, after 18
on_abc('20 a full total', Refused(20), 3, full())
on_abc('20 both buffers full', Refused(20), 3, full(), room=(91, 23, WORK))
on_abc('18 tape one byte short, a full total', Refused(18), 3, full(), room=(90, 23, WORK))
on_abc('18 bytes one short, a full total', Refused(18), 3, full(), room=(91, 22, WORK))
on_abc('18 16383 work words, a full total', Refused(18), 3, full(), room=(91, 23, WORK - 1))
on_abc('18 a tape of five bytes, a full total', Refused(18), 3, full(), room=(5, 65536, WORK))
on_abc('18 a total with room', Refused(18), 3, only({3: 5}), room=(90, 23, WORK))
on_abc('20 only that desk is full', Refused(20), 3, only({2: 1, 3: MOST, 4: 2}))
on_abc('all other desks are full', 1, 3, but_for(full(), {3: 0}))
on_abc('becomes exactly 4294967295', MOST, 3, counted())
on_abc('becomes exactly 4294967295, first desk', MOST, 0, only({0: MOST - 1, 1: 1}))
on_abc('becomes exactly 4294967295, last desk', MOST, 63, only({62: 1, 63: MOST - 1}))
for total in (255, 65535, 2**31 - 1): on_abc('from %d' % total, total + 1, 5, only({5: total}))
# no nodes
on_abc('no nodes, zeros', 0, 3, zeros(), second(0))
on_abc('no nodes, full totals', MOST, 3, full(), second(0))
case('P6, full totals', MOST, 0, full(), plain('aa\n\nbb'), 5, 5, b'x', plain('bxb'))
case('P7, full totals', MOST, 63, full(), plain('aa\n\nbb'), 3, 3, b'\n', plain('aa\n\n\n'))
case('no nodes, 32 layers, a full total', MOST, 7, only({7: MOST}), layers(plain(abc), 32), *second(0))
on_abc('18 before a full total, no nodes', Refused(18), 3, full(), second(0), room=(91, 23, WORK - 1))
# several nodes
for n in (2, 3, 4):
    on_abc('%d nodes, just fit' % n, MOST, 9, only({9: MOST - n, 10: n}), second(n))
    on_abc('20 %d nodes, one too many' % n, Refused(20), 9, only({9: MOST - n + 1, 10: n}), second(n))
on_abc('20 4 nodes at a full total', Refused(20), 9, only({9: MOST}), second(4))

# ---- what is reread: the reading's nodes, of every class, and no other; not what hangs on them
case('nodes kept and nodes dropped are not reread', 11, 4, only({4: 10}), around(), 4, 5, b'xyz', book('xyzb\n\n', 'k', nodes=[inline(0, 5, 12, 0, [0], (8, 9))]))
on_abc('a node of every class', 4, 4, zeros(), (4, 5, b'x', book('xb\n\n', nodes=[block(2, 0, 1), inline(1, 2, 6), leaf(2, 3, 5), block(3, 3, 4)])))
on_abc('one node of 32 levels', 1, 4, zeros(), (4, 5, b'x', merge_cases.moved(nest(32))))
case('wish 1, two passages joined', 2, 4, zeros(), joined(), 6, 7, b'x', book('bbx\ncc\n\n', ['bx', 'c'], [P(0), P(1)], [], [inline(1, 3, 1, 0, [0, 1, 1, 1]), leaf(4, 5, 6)]))

# ---- lists: each call has the ledger of the call before; kept, its book too
def calls(label, ledger, old, *calls, kept=False):
    """a call: what is told, the desk, the correction"""
    for i, (told, desk, correction) in enumerate(calls):
        case('%s, call %d, desk %d' % (label, i + 1, desk), told, desk, None if i else ledger, None if i and kept else old, *correction)

calls('three desks, a refused one between', zeros(), plain(abc), (2, 0, second(2)), (1, 31, p5), (Refused(9), 63, same), (3, 63, second(3)), (4, 31, second(3)), (6, 0, second(4)))
calls('three desks, one book', zeros(), plain(abc), (2, 0, first(2)), (1, 31, second(1)), (Refused(12), 31, unlike), (2, 63, third(2)), (5, 0, second(3, 'y')), kept=True)

calls('eight desks, the last first', zeros(), plain(abc), *[(1 + i % 4, desk, second(1 + i % 4)) for i, desk in enumerate((63, 32, 16, 8, 4, 2, 1, 0))])
# the same corrections for other desks
for label, desks, told in (('1, 2, 1', (1, 2, 1), (1, 2, 3)), ('2, 1, 2', (2, 1, 2), (1, 2, 3)), ('2, 2, 2', (2, 2, 2), (1, 3, 5)), ('63, 0, 17', (63, 0, 17), (1, 2, 2))):
    calls('the same corrections for desks ' + label, zeros(), plain(abc), *zip(told, desks, (first(1), second(2), third(2))), kept=True)
calls('one desk again and again', zeros(), plain(abc), *[(told, 7, second(nodes, letter)) for told, nodes, letter in ((1, 1, 'x'), (4, 3, 'y'), (4, 0, 'z'), (8, 4, 'x'), (10, 2, 'u'))], kept=True)

# 19, 17 and 20 in a list: the ledger is as before, the book too
calls('19 between', only({63: 4}), plain(abc), (Refused(19), 64, p5), (5, 63, p5), (Refused(19), 64, p5), (6, 63, p5))
calls('19 twice, ledger of 63', [7] * 63, plain(abc), (Refused(19), 0, p5), (Refused(19), 62, p5))
calls('the last layer', zeros(), layers(plain(abc), 31), (2, 0, second(2)), (Refused(17), 0, third(1)), (Refused(17), 63, third(2)), (0, 63, third(0)), kept=True)
calls('20, then another desk', only({3: MOST - 3, 4: 1}), plain(abc), (MOST - 1, 3, second(2)), (Refused(20), 3, third(2)), (3, 4, third(2)), kept=True)
calls('20, then a smaller reading', only({3: MOST - 2}), plain(abc), (Refused(20), 3, second(3)), (MOST - 1, 3, second(1)), (Refused(20), 3, third(2)), (MOST, 3, third(1)), (MOST, 3, first(0)), (Refused(20), 3, first(1, 'y')), (1, 2, first(1, 'y')), kept=True)
calls('ends at 20', only({0: 1, 63: MOST - 1}), plain(abc), (2, 0, p5), (MOST, 63, p5), (Refused(20), 63, p5))

# ---- wish 5: its half of 14 is one of the merge's numbers, and a list can come to it by a mark that an earlier reading leaves
case('14 mark of no width at an empty region, a full total', Refused(14), 14, but_for(only({0: 1, 63: 2}), {14: MOST}), *merge_cases.at_the_end(mark(3)))
case('14 before 20, 32 layers, mark of no width at an empty region', Refused(14), 3, full(), layers(marked('aa\n', mark(3)), 32), 3, 3, b'x', leaves('x', 1))
old, marking, appended = plain('aa\n\nbb\n\n'), (4, 5, b'y', but(leaves('yb\n\n', 2), diags=[mark(4)])), (8, 8, b'x', leaves('x', 1))
calls('a mark of no width left where the next region is empty', only({63: 4}), old, (2, 5, marking), (Refused(14), 63, appended), (Refused(14), 5, appended),
      (3, 5, (0, 1, b'x', leaves('xa\n\n', 1))), (Refused(14), 63, appended), kept=True)
calls('the same, the last passage first', only({63: 4}), old, (5, 63, appended), (2, 5, marking), kept=True)

# ---- two corrections in both orders for two desks, and both for one: the totals are equal, and the books
def both_orders(label, old, earlier, later, nodes):
    """the two corrections on the first book, and how many nodes each has"""
    by = len(earlier[2]) - (earlier[1] - earlier[0])
    moved = (later[0] + by, later[1] + by) + later[2:]
    for desks in ((5, 9), (9, 5), (5, 5)):
        ends = []
        for name, order in (('earlier first', ((0, earlier), (1, moved))), ('later first', ((1, later), (0, earlier)))):
            told, ledger, stored = [], zeros(), (old.tape(), old.bytes())
            for i, (start, end, replacement, reading) in order:
                *stored, _, ledger = merge_for_desk(desks[i], ledger, *stored, start, end, replacement, reading.tape(), reading.bytes())
                told.append(ledger[desks[i]])
            calls('both orders, %s, the earlier for desk %d, the later for %d, %s' % (label, *desks, name), zeros(), old, *[(t, desks[i], c) for t, (i, c) in zip(told, order)], kept=True)
            ends.append((ledger, shown(check_book(*stored))))
        assert ends[0] == ends[1]
        assert [ends[0][0][d] for d in desks] == (nodes if desks[0] != desks[1] else [sum(nodes)] * 2)
both_orders('three passages', book(abc, 'r', [P(0)], [], [inline(5, 6, 9, 0, [0, 1]), leaf(8, 9, 5)]),
            (0, 1, b'x\xc3\xa9', book('xéa\n\n', ['é', 'q'], [P(1), P(0)], [], [inline(1, 3, 15, 0, [0, 1, 1, 1]), leaf(3, 4, 5), leaf(4, 5, 5)])),
            (8, 10, b'c', book('c', 'qq', [P(1)], [], [inline(0, 1, 14, 0, [0, 1])])), [3, 1])
both_orders('two passages joined', joined(), (6, 7, b'', book('bb\ncc\n\n', 'q', [P(0)], [], [inline(1, 3, 9, 0, [0, 1]), leaf(4, 5, 6)])),
            (12, 14, b'c', book('c', nodes=[leaf(0, 1, 5)])), [2, 1])
