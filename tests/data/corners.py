#!/usr/bin/env python3
"""Writes corners.txt: calls with the answers that document 01 and our readings give them. Every answer
stands here as it was worked out by hand from the text; none was copied from a program. The test
needs only corners.txt; this file is for whoever changes it."""

def enc(v):
    """A value in its shortest MessagePack form; bytes become bin, lists arrays, Raw stays."""
    if v is None: return b'\xc0'
    if isinstance(v, bool): return b'\xc3' if v else b'\xc2'
    if isinstance(v, Raw): return v.bytes
    if isinstance(v, int):
        if -32 <= v < 128: return (v % 256).to_bytes(1, 'big')
        for first, width in ((0xcc, 1), (0xcd, 2), (0xce, 4), (0xcf, 8)):
            if 0 <= v < 1 << 8 * width: return bytes([first]) + v.to_bytes(width, 'big')
        for first, width in ((0xd0, 1), (0xd1, 2), (0xd2, 4), (0xd3, 8)):
            if -1 << 8 * width - 1 <= v < 0: return bytes([first]) + v.to_bytes(width, 'big', signed=True)
    if isinstance(v, bytes):
        n = len(v)
        return (b'\xc4' + bytes([n]) if n < 256 else b'\xc5' + n.to_bytes(2, 'big')) + v
    n = len(v)
    return (bytes([0x90 + n]) if n < 16 else b'\xdc' + n.to_bytes(2, 'big')) + b''.join(map(enc, v))

class Raw:
    def __init__(self, text): self.bytes = bytes.fromhex(text)

def hx(b): return b.hex() or '-'
def m(v): return hx(enc(v))
def u(n): return bytes(15) + bytes([n])                    # an id
def inc(k): return [0, k]
def exc(k): return [1, k]

NONE = [None, None, [], []]
def tree(l0=(), runs=(), marks=(None, None)): return [marks[0], marks[1], list(l0), list(runs)]
def view(n, first=b'k', last=None, visible=None): return [u(n), u(n + 100), first, last, visible]
def sst(n): return hx(u(n + 100))
def seg(prefix, t=NONE): return [prefix, t]
def man(segs=(), t=NONE, name=None, borrows=(), init=True, seq=0):
    return [init, t, list(segs), name, 1, 0, -2 ** 63, seq, 0, list(borrows), 0, 0]
def src(manifest, path, check): return '%s:%s:%s' % (m(manifest), hx(path), hx(u(check)))
def ids(*ns): return ','.join(hx(u(n)) for n in ns) or '.'

OUT = []
def about(text): OUT.append('# ' + text)
def case(call, answer): OUT.extend([call, '= ' + answer])

NEW = '9cc394c0c0909090c00100d380000000000000000000900000'
assert m(man()) == NEW

about('MessagePack: the new manifest; the audit program on no input')
case('read ' + NEW, 'ok ' + NEW)
case('read -', 'refused 18 at 0')

H = m(man([seg(b'a/'), seg(b'b/'), seg(b'c/')]))
about('The marked corners, held a/ b/ c/')
case('select %s %s' % (H, m([inc(b'b/1'), inc(b'b/9')])), 'ok window 1 2')
case('select %s %s' % (H, m([exc(b'b/'), exc(b'c/')])), 'ok window 1 2')
case('select %s %s' % (H, m([inc(b'b0'), exc(b'c/')])), 'ok window 0 0')
case('select %s %s' % (H, m([exc(b'a'), exc(b'a\0')])), 'refused 5 at 0')
case('insert %s %s' % (H, hx(b'b/x')), 'refused 3 at 1')
case('insert %s %s' % (H, hx(b'b')), 'refused 3 at 1')
case('insert %s -' % H, 'refused 3 at 0')
L0 = [view(1), view(2), view(3)]
case('merge_from_writer %s %s' % (m(man([seg(b'a', tree(L0))])), m(man([seg(b'a', tree(marks=(u(3), u(102))))]))),
     'ok ' + m([seg(b'a', tree([view(1)], marks=(u(3), u(102))))]))

about('Insert: found even in a full list and with no room; entered at its place; no room; order of 3 and 4')
two = [bytes([97 + i // 10, 97 + i % 10]) for i in range(65)]
full = m(man([seg(p) for p in two[:64]]))
case('insert %s %s' % (full, hx(two[63])), 'ok found 63')
case('room=0,0,0,0,0,0 insert %s %s' % (full, hx(two[0])), 'ok found 0')
case('insert %s %s' % (full, hx(b'zz')), 'refused 4 at 0')
case('insert %s %s' % (full, hx(b'aab')), 'refused 3 at 0')
case('insert %s %s' % (H, hx(b'b0')), 'ok entered 2 ' + m(man([seg(b'a/'), seg(b'b/'), seg(b'b0'), seg(b'c/')])))
case('room=4,0,0,0,0,8 insert %s %s' % (H, hx(b'b0')), 'ok entered 2 ' + m(man([seg(b'a/'), seg(b'b/'), seg(b'b0'), seg(b'c/')])))
case('room=3,0,0,0,0,8 insert %s %s' % (H, hx(b'b0')), 'refused 4 at 0')
case('room=4,0,0,0,0,7 insert %s %s' % (H, hx(b'b0')), 'refused 4 at 0')
case('room=0,0,0,0,0,0 insert %s %s' % (H, hx(b'b/x')), 'refused 3 at 1')
case('insert %s %s' % (H, hx(b'x' * 33)), 'refused 2 at 0')
case('insert %s %s' % (NEW, hx(b'x' * 32)), 'ok entered 0 ' + m(man([seg(b'x' * 32)])))
about('Insert: the successor that extends the candidate is the conflict')
case('insert %s %s' % (m(man([seg(b'ab'), seg(b'ac'), seg(b'b')])), hx(b'a')), 'refused 3 at 0')
case('insert %s %s' % (m(man([seg(b'a'), seg(b'c')])), hx(b'b')), 'ok entered 1 ' + m(man([seg(b'a'), seg(b'b'), seg(b'c')])))

about('The empty prefix: enters an empty list, is found, is looked up as unsegmented, bars all others')
E = m(man([seg(b'')]))
case('insert %s -' % NEW, 'ok entered 0 ' + E)
case('insert %s -' % E, 'ok found 0')
case('lookup %s -' % E, 'ok unsegmented')
case('lookup %s -' % NEW, 'ok unsegmented')
case('insert %s 61' % E, 'refused 3 at 0')
case('select %s %s' % (E, m([inc(b'q'), inc(b'q')])), 'ok window 0 1')
case('lookup %s %s' % (H, hx(b'b/')), 'ok segment 1')
case('lookup %s %s' % (H, hx(b'b')), 'ok absent')
case('lookup %s %s' % (H, hx(b'b' * 33)), 'refused 2 at 0')

about('Selection: no segment at all; 5 also then; a bound over its limit; the window from -inf to inf')
case('select %s %s' % (NEW, m([None, None])), 'ok unsegmented')
case('select %s %s' % (NEW, m([inc(b'b'), inc(b'a')])), 'refused 5 at 0')
case('select %s %s' % (NEW, m([None, exc(b'')])), 'refused 5 at 0')
case('select %s %s' % (NEW, m([None, inc(b'')])), 'ok unsegmented')
case('select %s %s' % (H, m([None, None])), 'ok window 0 3')
case('select %s %s' % (H, m([inc(b'x' * 65), None])), 'refused 2 at 0')
case('select %s %s' % (H, m([inc(b'x' * 64), None])), 'ok window 0 0')
about('Selection: a prefix of ff bytes has no end')
case('select %s %s' % (m(man([seg(b'a'), seg(b'\xff')])), m([exc(b'\xff\xff'), None])), 'ok window 1 2')

about('18: where it is bad')
case('read 9301', 'refused 18 at 2')
case('read 92c40501', 'refused 18 at 1')
for cut in ('c4', 'cd01', 'dc00', 'df00', 'c1', 'd901', 'c70100'): case('read ' + cut, 'refused 18 at 0')
case('read 91c4', 'refused 18 at 1')
case('read 9191df00', 'refused 18 at 2')
case('read 91c1', 'refused 18 at 1')
case('read ddffffffff0102', 'refused 18 at 7')
case('read c0c0', 'refused 18 at 1')
case('read 81', 'refused 18 at 1')
case('read 8101', 'refused 18 at 2')
case('read ' + '91' * 16 + 'c0', 'refused 19 at 0')
case('read ' + '91' * 15 + '90', 'refused 19 at 0')
case('read ' + '91' * 16 + '90', 'refused 18 at 16')
case('read ' + '91' * 16 + '80', 'refused 18 at 16')
case('read ' + '91' * 17, 'refused 18 at 16')
case('read ' + '91' * 16, 'refused 18 at 16')
about('18 over the whole input comes before 19')
case('read 9cc0c1', 'refused 18 at 2')
about('The innermost bad value: a missing one starts at the end')
case('read 9c', 'refused 18 at 1')

about('19: the first wrong value; an array too short is itself wrong')
case('read c0', 'refused 19 at 0')
case('read 90', 'refused 19 at 0')
def bad(i, v):
    r = man(); r[i] = v
    return 'read ' + m(r), len(b'\x9c' + b''.join(enc(x) for x in r[:i]))
for i, v in ((0, None), (0, 1), (1, None), (1, [None] * 3), (2, None), (3, Raw('a178')), (4, -1), (4, Raw('ca00000000')), (6, 2 ** 63),
             (7, None), (9, None), (11, False)):
    call, at = bad(i, v)
    case(call, 'refused 19 at %d' % at)
about('19 inside: an id of 15 bytes, a run id past u32, a bound that is short, of another kind, or no array')
at = len(bytes.fromhex('9cc394c0c091')) + 1
case('read ' + m(man(t=tree([[bytes(15), u(1), b'', None, None]]))), 'refused 19 at %d' % at)
case('read ' + m(man(t=tree(runs=[[2 ** 32, [view(1)]]]))), 'refused 19 at %d' % (len(bytes.fromhex('9cc394c0c090')) + 2))
deep = at + 18 + 18 + 3 + 1                                # the visible range of a view with key k and no last key
for bound, more in (([], 1), ([0], 1), (0, 1), ([2, b'a'], 2), ([True, b'a'], 2), ([0, None], 3)):
    case('read ' + m(man(t=tree([[u(1), u(2), b'k', None, [bound, None]]]))), 'refused 19 at %d' % (deep + more))
about('Every width is read, further elements are skipped, signed forms of non-negative numbers too')
case('read dc000e' + 'c3' + 'dd00000005c0c0dc000090c2' + '90' + 'c0' + 'd30000000000000001' + 'cc00' + 'd38000000000000000'
     + 'd10000' + 'ce00000000' + 'dc0000' + '00' + 'cf0000000000000000' + 'a178' + '8101c0', 'ok ' + NEW)
case('read ' + m(man(t=tree([[u(1), u(2), b'k', None, [[0, b'a', 7], None, [[]]], 5]]))), 'ok ' + m(man(t=tree([[u(1), u(2), b'k', None, [[0, b'a'], None]]]))))
about('Numbers at the edges of their fields')
case('read ' + m([True, NONE, [], None, 2 ** 64 - 1, 128, 2 ** 63 - 1, 255, 256, [], 65535, 65536]), 'ok ' + m([True, NONE, [], None, 2 ** 64 - 1, 128, 2 ** 63 - 1, 255, 256, [], 65535, 65536]))

about('1: the first broken rule')
case('read ' + m(man([seg(p) for p in two])), 'refused 1 at 1')
case('room=1,1,1,1,1,1 read ' + m(man([seg(p) for p in two])), 'refused 1 at 1')
case('room=63,1,1,1,1,8192 read ' + full, 'refused 4 at 0')
case('read ' + m(man([seg(b'p' * 33)])), 'refused 1 at 1')
case('read ' + m(man(name=b'n' * 33)), 'refused 1 at 1')
case('read ' + m(man(t=tree([view(1, b'k' * 65)]))), 'refused 1 at 1')
case('read ' + m(man([seg(b'b'), seg(b'a')])), 'refused 1 at 2')
case('read ' + m(man([seg(b'a'), seg(b'a')])), 'refused 1 at 2')
case('read ' + m(man([seg(b'a'), seg(b'ab')])), 'refused 1 at 3')
case('read ' + m(man([seg(b''), seg(b'b')])), 'refused 1 at 3')
case('read ' + m(man(t=tree([view(1, b'b', b'a')]))), 'refused 1 at 4')
case('read ' + m(man(t=tree([view(1, b'b', b'b', [None, exc(b'b')])]))), 'refused 1 at 4')
case('read ' + m(man(t=tree([view(1, b'b', None, [exc(b'c'), exc(b'c\0')])]))), 'refused 1 at 4')
case('read ' + m(man(t=tree(runs=[[1, []]]))), 'refused 1 at 5')
case('read ' + m(man(t=tree(runs=[[1, [view(1, b'a', b'b'), view(2, b'b')]]]))), 'refused 1 at 5')
case('read ' + m(man(t=tree(runs=[[1, [view(1, b'a'), view(2, b'a')]]]))), 'refused 1 at 5')
about('L4 and L5 both broken: 4 is first, though the run comes first in the bytes')
case('read ' + m(man([seg(b'a', tree([view(1, b'b', b'a')]))], tree(runs=[[1, []]]))), 'refused 1 at 4')
about('Lawful all the same: keys outside the prefix, equal run ids, overlapping L0, a borrow without ids')
odd = m(man([seg(b'p', tree([view(1, b'a', b'z'), view(1, b'a', b'z')], [[3, [view(2)]], [3, [view(2)]]]))], borrows=[[b'', u(1), None, []]]))
case('read ' + odd, 'ok ' + odd)

about('Tree merge: the kinds never cross; an absent watermark matches nothing')
W = man([seg(b'a', tree([view(1), view(2)], [[5, [view(9)]]], (u(7), u(8))))])
case('merge_from_writer %s %s' % (m(W), m(man([seg(b'a', tree(marks=(u(102), u(2))))]))), 'ok ' + m([seg(b'a', tree([view(1), view(2)], marks=(u(102), u(2))))]))
about('A writer-only segment keeps neither runs nor watermarks')
case('merge_from_writer %s %s' % (m(W), NEW), 'ok ' + m([seg(b'a', tree([view(1), view(2)]))]))
case('merge_from_compactor %s %s' % (m(W), NEW), 'ok ' + m([seg(b'a', tree([view(1), view(2)]))]))
about('A compactor-only segment: empty it vanishes, with data it is refused; L0 is data')
case('merge_from_writer %s %s' % (NEW, m(man([seg(b'a'), seg(b'b', tree(marks=(u(1), None)))]))), 'ok 90')
case('merge_from_writer %s %s' % (NEW, m(man([seg(b'a'), seg(b'b', tree([view(1)]))]))), 'refused 6 at 1')
case('merge_from_writer %s %s' % (m(man([seg(b'c')])), m(man([seg(b'a', tree(runs=[[1, [view(1)]]]))]))), 'refused 6 at 0')
about('From the compactor: a result that is empty is dropped, watermarks or not; from the writer it stays')
case('merge_from_compactor %s %s' % (m(man([seg(b'c')])), m(man([seg(b'a', tree([view(1)], marks=(u(1), None)))]))), 'ok 90')
case('merge_from_writer %s %s' % (m(man([seg(b'c')])), NEW), 'ok ' + m([seg(b'c')]))
about('7 speaks of kept prefixes: the index is that of the kept list')
case('merge_from_compactor %s %s' % (m(man([seg(b'a'), seg(b'b', tree([view(1)]))])), m(man([seg(b'ba', tree(runs=[[1, [view(2)]]]))]))), 'refused 7 at 0')
case('merge_from_compactor %s %s' % (m(man([seg(b'b')])), m(man([seg(b'ba', tree(runs=[[1, [view(2)]]]))]))), 'ok ' + m([seg(b'ba', tree(runs=[[1, [view(2)]]]))]))
about('The order of the manifests: the writer is judged first')
case('merge_from_writer 90 c1', 'refused 19 at 0')
case('merge_from_writer c1 90', 'refused 18 at 0')
about('Refusal 4 counts the list alone')
case('room=1,2,0,0,0,3 merge_from_writer %s %s' % (m(W), NEW), 'ok ' + m([seg(b'a', tree([view(1), view(2)]))]))
case('room=1,2,0,0,0,2 merge_from_writer %s %s' % (m(W), NEW), 'refused 4 at 0')

about('Own ranges of segment c: 8 and 9 after the unbounded ends are replaced')
C = m(man([seg(b'c', tree([view(1, b'c')]))]))
for r, a in (([None, inc(b'b')], 8), ([inc(b'a'), inc(b'b')], 9), ([inc(b'd'), None], 8), ([inc(b'd'), inc(b'e')], 9), ([None, inc(b'd')], 9), ([inc(b'b'), inc(b'a')], 8)):
    case('project %s . . .,%s' % (C, m(r)), 'refused %d at 1' % a)
    case('project %s . 0:0000000000000000 .,%s' % (C, m(r)), 'ok 0 ' + NEW)
case('project %s . . .,%s' % (C, m([None, exc(b'd')])), 'ok 0 ' + m(man([seg(b'c', tree([view(1, b'c', None, [inc(b'c'), exc(b'd')])]))])))
about('9 is about bounds, not keys')
case('project %s . . .,%s' % (m(man([seg(b'a\0')])), m([exc(b'a'), inc(b'a\0b')])), 'refused 9 at 1')
about('The lowest place, whichever number; the unsegmented tree can have 8 and never 9')
case('project %s . . %s,%s' % (C, m([None, exc(b'')]), m([inc(b'a'), inc(b'b')])), 'refused 8 at 0')
case('project %s . . .,%s,%s' % (m(man([seg(b'a'), seg(b'b')])), m([inc(b'x'), inc(b'y')]), m([inc(b'y'), inc(b'x')])), 'refused 9 at 1')
about('Excess own ranges are unread, even one over its limit; one that counts is refused 2')
long = m([inc(b'x' * 65), None])
case('project %s . . .,.,%s' % (C, long), 'ok 0 ' + m(man([seg(b'c', tree([view(1, b'c', None, [inc(b'c'), exc(b'd')])]))])))
case('project %s . . .,%s' % (C, long), 'refused 2 at 0')
case('project %s . 0:0000000000000000 .,%s' % (C, long), 'refused 2 at 0')
about('Order: 18 and 19 come before 2 of an own range, 1 after it; 5 before 10; 10 before 8')
case('project 90 . . %s' % long, 'refused 19 at 0')
case('project %s . . %s' % (m(man([seg(b'b'), seg(b'a')])), long), 'refused 2 at 0')
case('project %s %s 1:8000000000000000 .' % (C, m([inc(b'b'), inc(b'a')])), 'refused 5 at 0')
case('project %s . 1:4000000000000002 %s' % (C, m([inc(b'b'), inc(b'a')])), 'refused 10 at 62')
case('project %s . 1:0000000000000001 .' % C, 'ok 1 ' + C)
about('5 also when everything is filtered out')
case('project %s %s 0:0000000000000000 .' % (C, m([exc(b'a'), exc(b'a\0')])), 'refused 5 at 0')

about('Nothing set copies, with borrows that nothing uses; a filter alone prunes them; a table of nothing is set')
B = [[b'p', u(1), None, [u(101), u(5)]], [b'q', u(2), None, []], [b'r', u(3), None, [u(6)]]]
P = man(t=tree([view(1)], marks=(u(1), u(2))), borrows=B)
case('project %s . . .' % m(P), 'ok 0 ' + m(P))
case('project %s . 1:0000000000000000 .' % m(P), 'ok 0 ' + m(man(t=tree([view(1)], marks=(u(1), u(2))), borrows=[[b'p', u(1), None, [u(101)]]])))
case('project %s . . .,.' % m(P), 'ok 0 ' + m(man(t=tree([view(1, visible=[inc(b'k'), None])], marks=(u(1), u(2))), borrows=[[b'p', u(1), None, [u(101)]]])))
about('Dropping the unsegmented tree clears its watermarks, projecting it to nothing keeps them')
case('project %s . 0:0000000000000000 .' % m(P), 'ok 0 ' + NEW)
case('project %s %s . .' % (m(P), m([None, exc(b'k')])), 'ok 0 ' + m(man(t=tree(marks=(u(1), u(2))))))
case('project %s %s . %s' % (m(P), m([None, exc(b'k')]), m([inc(b'x'), None])), 'ok 0 ' + NEW)
about('A global range alone is not met with the prefix; a projected segment with nothing left goes, a filtered-in one stays')
case('project %s %s . .' % (m(man([seg(b'c', tree([view(1, b'a')])), seg(b'd')])), m([None, None])), 'ok 0 ' + m(man([seg(b'c', tree([view(1, b'a', None, [inc(b'a'), None])]))])))
case('project %s . 1:0000000000000002 .' % m(man([seg(b'c', tree([view(1, b'a')])), seg(b'd')])), 'ok 1 ' + m(man([seg(b'd')])))
about('Span: to the next view of the run as it was; a view with no physical key in it goes')
R = man(t=tree(runs=[[4, [view(1, b'a', b'b'), view(2, b'd', b'e')]]]))
case('project %s %s . .' % (m(R), m([inc(b'b'), None])), 'ok 0 ' + m(man(t=tree(runs=[[4, [view(1, b'a', b'b', [inc(b'b'), exc(b'd')]), view(2, b'd', b'e', [inc(b'd'), inc(b'e')])]]]))))
case('project %s %s . .' % (m(R), m([inc(b'c'), None])), 'ok 0 ' + m(man(t=tree(runs=[[4, [view(2, b'd', b'e', [inc(b'd'), inc(b'e')])]]]))))
case('project %s %s . .' % (m(R), m([exc(b'b'), exc(b'd')])), 'ok 0 ' + NEW)
about('Room for a projection')
case('room=0,2,1,0,0,8 project %s %s . .' % (m(R), m([inc(b'b'), None])), 'ok 0 ' + m(man(t=tree(runs=[[4, [view(1, b'a', b'b', [inc(b'b'), exc(b'd')]), view(2, b'd', b'e', [inc(b'd'), inc(b'e')])]]]))))
case('room=0,2,1,0,0,7 project %s %s . .' % (m(R), m([inc(b'b'), None])), 'refused 4 at 0')

about('Owned ids: record order, repeats kept')
O = man([seg(b'a', tree([view(1)]))], tree([view(2), view(1)], [[1, [view(3)]]]), borrows=[[b'', u(1), None, [u(102)]]])
case('owned ' + m(O), 'ok %s,%s,%s' % (sst(1), sst(3), sst(1)))
case('owned ' + NEW, 'ok .')
case('room=0,0,0,0,3,0 owned ' + m(O), 'ok %s,%s,%s' % (sst(1), sst(3), sst(1)))
case('room=9,9,9,9,2,9 owned ' + m(O), 'refused 4 at 0')

about('Clone: the parent last, even with no ids; 15 before 4 before 16; surplus fresh ids and an equal path are no fault')
case('clone %s %s %s %s' % (NEW, hx(b'p'), hx(u(9)), ids(50)), 'ok ' + m(man(init=False, borrows=[[b'p', u(9), u(50), []]])))
K = man(t=tree([view(1)]), borrows=[[b'p', u(1), u(2), [u(7)]]])
case('clone %s %s %s %s' % (m(K), hx(b'p'), hx(u(9)), ids(50, 51, 52)), 'ok ' + m(man(t=tree([view(1)]), init=False, borrows=[[b'p', u(2), u(50), [u(7)]], [b'p', u(9), u(51), [u(101)]]])))
case('clone %s %s %s %s' % (m(K), hx(b'p'), hx(u(9)), ids(50)), 'refused 16 at 0')
case('room=0,1,0,1,2,3 clone %s %s %s %s' % (m(K), hx(b'p'), hx(u(9)), ids(50)), 'refused 4 at 0')
case('room=0,1,0,2,2,3 clone %s %s %s %s' % (m(K), hx(b'p'), hx(u(9)), ids(50)), 'refused 16 at 0')
case('room=0,0,0,0,0,0 clone %s %s %s .' % (m(man(borrows=[[b'', u(1), None, []]])), hx(b'p'), hx(u(9))), 'refused 15 at 0')
case('clone %s %s %s %s' % (NEW, hx(b'p' * 65), hx(u(9)), ids(50)), 'refused 2 at 0')
case('clone %s - %s %s' % (NEW, hx(u(9)), ids(50)), 'ok ' + m(man(init=False, borrows=[[b'', u(9), u(50), []]])))
case('clone %s %s %s %s' % (m(man(borrows=[[b'', u(1), u(2), []]] * 32)), hx(b'p'), hx(u(9)), ids(*range(40))), 'refused 4 at 0')

about('Union: no source at all; only sources that are set aside still give the name and the greatest last_l0_seq')
case('union .', 'ok ' + NEW)
case('union . %s %s' % (src(man(name=b'', seq=3), b'p', 1), src(man([seg(b'a')], name=b'', seq=9), b'q', 2)), 'ok ' + m(man(name=b'', seq=9)))
A, Z = man(t=tree([view(1, b'a', b'b')], [[7, [view(2, b'a', b'b')]]])), man(t=tree([view(3, b'c', b'd')], [[7, [view(4, b'c')]]], (u(1), u(1))), init=False)
both = man(t=tree([view(1, b'a', b'b'), view(3, b'c', b'd')], [[1, [view(2, b'a', b'b')]], [0, [view(4, b'c')]]]), borrows=[[b'p', u(1), u(50), [u(101), u(102)]], [b'q', u(2), u(51), [u(103), u(104)]]])
case('union %s %s %s' % (ids(50, 51), src(Z, b'q', 2), src(A, b'p', 1)), 'ok ' + m(both))
case('union %s %s %s' % (ids(50), src(Z, b'q', 2), src(A, b'p', 1)), 'refused 16 at 0')
case('union %s' % ids(50) + (' ' + src(A, b'p', 1)) * 9, 'refused 2 at 0')
about('11 among all sources, set aside or not; absent is not empty')
case('union . %s %s' % (src(man(), b'p', 1), src(man(name=b''), b'q', 2)), 'refused 11 at 0')
about('12 before 13 without an extractor; 13 also for an empty segment, not of a source that is set aside')
S = man([seg(b's')], tree([view(1, b'a', b'b')]))
case('union . %s %s' % (src(S, b'p', 1), src(man(t=tree([view(1, b'b')])), b'q', 2)), 'refused 12 at 0')
case('union . %s' % src(S, b'p', 1), 'refused 13 at 0')
case('union . %s' % src(man([seg(b's')]), b'p', 1), 'ok ' + NEW)
about('12 looks at keys: an end excluded at b, a start included at b')
case('union %s %s %s' % (ids(50, 51), src(man(t=tree([view(1, b'a', None, [None, exc(b'b')])])), b'p', 1), src(man(t=tree([view(2, b'b')])), b'q', 2)),
     'ok ' + m(man(t=tree([view(1, b'a', None, [None, exc(b'b')]), view(2, b'b')]), borrows=[[b'p', u(1), u(50), [u(101)]], [b'q', u(2), u(51), [u(102)]]])))
about('With an extractor: 14 before 12; all prefixes of used sources count for the place, those without views too')
def X(*segs, t=NONE, borrows=()): return man(list(segs), t, b'x', borrows)
case('union . %s %s' % (src(X(seg(b'a', tree([view(1)])), seg(b'b')), b'p', 1), src(X(seg(b'ba', tree([view(1)]))), b'q', 2)), 'refused 14 at 0')
case('union . %s %s' % (src(X(seg(b'a'), seg(b'b', tree([view(1)]))), b'p', 1), src(X(seg(b'b', tree([view(1)]))), b'q', 2)), 'refused 12 at 2')
about('Unsegmented views are not carried, yet make a source used and are owned; a prefix without views gives no segment')
case('union %s %s' % (ids(50), src(X(seg(b'a'), t=tree([view(1)])), b'p', 1)), 'ok ' + m(man(name=b'x', borrows=[[b'p', u(1), u(50), [u(101)]]])))
about('15 for a used borrow, before 4 and 16; a source that is set aside has none that counts')
case('room=0,0,0,0,0,0 union . %s' % src(X(t=tree([view(1)]), borrows=[[b'', u(1), None, []]]), b'p', 1), 'refused 15 at 0')
case('union . %s' % src(X(borrows=[[b'', u(1), None, []]]), b'p', 1), 'ok ' + m(man(name=b'x')))
about('Groups: by path and id set, ids ascending once each; the supplied checkpoint if a member has it, else the smallest')
G = X(t=tree([view(1)]), borrows=[[b'p', u(9), u(5), [u(7), u(6), u(7)]], [b'p', u(9), u(4), [u(6), u(7)]], [b'o', u(9), u(8), []], [b'o', u(9), u(3), []], [b'p', u(9), u(20), [u(6)]], [b'p', u(9), u(6), [u(6)]]])
case('union %s %s' % (ids(50, 51, 52, 53), src(G, b'p', 20)),
     'ok ' + m(man(name=b'x', borrows=[[b'o', u(3), u(50), []], [b'p', u(20), u(51), [u(6)]], [b'p', u(4), u(52), [u(6), u(7)]], [b'p', u(20), u(53), [u(101)]]])))
about('Two sources of one path with equal starts: the later one gives the path its checkpoint')
T = tree([view(1)])
case('union %s %s %s' % (ids(50), src(X(t=T), b'p', 3), src(X(t=T), b'p', 8)), 'ok ' + m(man(name=b'x', borrows=[[b'p', u(8), u(50), [u(101)]]])))
about('Sources sort by bounds: excluded a comes before included a 00, though both begin at the same key')
low, high = X(t=tree([view(1, b'a', None, [exc(b'a'), None])])), X(t=tree([view(1, b'a\0')]))
case('union %s %s %s' % (ids(50), src(high, b'p', 3), src(low, b'p', 8)), 'ok ' + m(man(name=b'x', borrows=[[b'p', u(3), u(50), [u(101)]]])))

about('Not calls')
for line in ('nonsense', 'read', 'read 9', 'read 9C', 'read  90', 'read 90 ', ' read 90', 'READ 90', 'lookup 90', 'lookup zz 61', 'insert 90 61 61', 'owned .', 'select %s .' % NEW,
             'select %s 90' % NEW, 'select %s 92c0' % NEW, 'select %s -' % NEW, 'project %s . . 90' % NEW, 'project %s . 2:0000000000000000 .' % NEW, 'project %s . 1:0 .' % NEW,
             'project %s . 1:000000000000000A .' % NEW, 'project %s . . .,.,90' % NEW, 'project %s . . ,' % NEW, 'clone %s 61 %s' % (NEW, hx(u(1))), 'clone %s 61 00 .' % NEW,
             'clone %s 61 %s 00' % (NEW, hx(u(1))), 'clone %s 61 %s -' % (NEW, hx(u(1))), 'union', 'union . ', 'union . %s:61' % NEW, 'union . %s:61:%s:' % (NEW, hx(u(1))),
             'room=1,1,1,1,1 read 90', 'room=1,1,1,1,1,1', 'room=1,1,1,1,1,x read 90', 'room=1,1,1,1,1,+1 read 90', 'room=1,1,1,1,1, read 90', 'room=1,1,1,1,1,1 nonsense',
             'room=1,1,1,1,1,18446744073709551616 read 90', 'room=0,0,0,0,0,0 room=0,0,0,0,0,0 read 90', 'read 90\t', '\tread 90', 'read \u00e9\u00e9'):
    case(line, 'unknown')
about('Forms are judged before anything else')
case('lookup c1 ' + '6' * 67, 'unknown')
case('union %s %s' % (ids(50), 'c1:' + '61' * 65 + ':00'), 'unknown')
about('2 before 18 of a manifest; a room may be larger than L1 and does not lift it')
case('lookup c1 ' + '61' * 33, 'refused 2 at 0')
case('read ' + '00' * 65537, 'refused 2 at 0')
case('room=9999,9999,9999,9999,9999,18446744073709551615 insert %s %s' % (full, hx(b'zz')), 'refused 4 at 0')

with open(__file__.rsplit('/', 1)[0] + '/corners.txt' if '/' in __file__ else 'corners.txt', 'w') as f:
    f.write('# Calls and, after "= ", the answers that document 01 and our readings give. Made by corners.py.\n' + '\n'.join(OUT) + '\n')
