#!/usr/bin/env python3
"""Refusals 18, 19 and 1 once more, in another language and by other ways, to hold `read` against.

    calls short | reading.py PROGRAM        calls 7 20000 read | reading.py PROGRAM

Takes the `read` calls from standard input, asks PROGRAM, which speaks the line protocol, and compares number
and place. The bytes are judged with a stack instead of recursion, the record by a table of its fields."""
import subprocess, sys

def heads(b, i):
    """The value at i: (kind, width of its length, length or count), or None if its head is cut or never used."""
    t = b[i]
    if t < 0x80 or t >= 0xe0 or t in (0xc0, 0xc2, 0xc3): return 'bytes', 0, 0
    if t < 0xc0: return ('map', 'list', 'bytes', 'bytes')[t - 0x80 >> 4], 0, t & (15 if t < 0xa0 else 31)
    if t == 0xc1: return None
    kind, width, more = {0xc4: ('bytes', 1, 0), 0xc5: ('bytes', 2, 0), 0xc6: ('bytes', 4, 0), 0xc7: ('bytes', 1, 1),
                         0xc8: ('bytes', 2, 1), 0xc9: ('bytes', 4, 1), 0xd9: ('bytes', 1, 0), 0xda: ('bytes', 2, 0),
                         0xdb: ('bytes', 4, 0), 0xdc: ('list', 2, 0), 0xdd: ('list', 4, 0), 0xde: ('map', 2, 0),
                         0xdf: ('map', 4, 0)}.get(t, ('bytes', 0, 0))
    if width == 0: return 'bytes', 0, {0xca: 4, 0xcb: 8, 0xd4: 2, 0xd5: 3, 0xd6: 5, 0xd7: 9, 0xd8: 17}.get(t) or 1 << (t & 3)
    if i + 1 + width > len(b): return None
    return kind, width, int.from_bytes(b[i + 1:i + 1 + width], 'big') + more

def malformed(b):
    """The place of refusal 18, or None."""
    i, wanted = 0, [1]                          # how many values each array or map around still wants
    while wanted:
        if wanted[-1] == 0:
            wanted.pop()
            continue
        wanted[-1] -= 1
        head = heads(b, i) if i < len(b) else None
        if head is None: return i
        kind, width, count = head
        if kind == 'bytes':
            if i + 1 + width + count > len(b): return i
            i += count
        elif len(wanted) > 16: return i
        else: wanted.append(count * (2 if kind == 'map' else 1))
        i += 1 + width
    return i if i < len(b) else None

def parse(b, i):
    """A well-formed value as (place, kind, what it holds), and where it ends."""
    t, (kind, width, count) = b[i], heads(b, i)
    j = i + 1 + width
    if kind == 'bytes':
        inside, end = b[j:j + count], j + count
        if t < 0x80 or t >= 0xe0: return (i, 'int', t - 256 * (t >= 0xe0)), end
        if 0xcc <= t <= 0xd3: return (i, 'int', int.from_bytes(inside, 'big', signed=t >= 0xd0)), end
        if 0xc4 <= t <= 0xc6: return (i, 'bin', inside), end
        return (i, {0xc0: 'nil', 0xc2: 'bool', 0xc3: 'bool'}.get(t, 'other'), None), end
    values = []
    for _ in range(count * (2 if kind == 'map' else 1)):
        value, j = parse(b, j)
        values.append(value)
    return (i, kind, values), j

BIN, ID, U32, U64, I64 = 'bin', 'id', (0, 2 ** 32), (0, 2 ** 64), (-2 ** 63, 2 ** 63)
def opt(t): return ['opt', t]
def many(t): return ['many', t]
def rec(*ts): return ['rec', ts]
RANGE = rec(['bound'], ['bound'])
VIEW = rec(ID, ID, BIN, opt(BIN), opt(RANGE))
TREE = rec(opt(ID), opt(ID), many(VIEW), many(rec(U32, many(VIEW))))
MANIFEST = rec('bool', TREE, many(rec(BIN, TREE)), opt(BIN), U64, U64, I64, U64, U64, many(rec(BIN, ID, opt(ID), many(ID))), U64, U64)

def wrong(value, t):
    """The place of refusal 19, or None."""
    at, kind, inside = value
    if t == ID: good = kind == 'bin' and len(inside) == 16
    elif isinstance(t, str): good = kind == t
    elif isinstance(t, tuple): good = kind == 'int' and t[0] <= inside < t[1]
    elif t[0] in ('opt', 'bound') and kind == 'nil': good = True
    elif t[0] == 'opt': return wrong(value, t[1])
    else:
        parts = {'many': lambda: [t[1]] * len(inside), 'rec': lambda: t[1], 'bound': lambda: ((0, 2), BIN)}[t[0]]
        if kind != 'list' or len(inside) < len(parts()): return at
        return next((w for w in map(wrong, inside, parts()) if w is not None), None)
    return None if good else at

def plain(value): return [plain(v) for v in value[2]] if value[1] == 'list' else value[2]

def broken(m):
    """The place of refusal 1, or None."""
    trees = [m[1]] + [s[1] for s in m[2]]
    runs = [r[1] for t in trees for r in t[3]]
    views = [v for t in trees for v in t[2]] + [v for r in runs for v in r]
    bounds = [b[1] for v in views if v[4] for b in v[4][:2] if b]
    long = [v[2] for v in views] + [v[3] for v in views if v[3] is not None] + bounds + [b[0] for b in m[9]]
    prefixes = [s[0] for s in m[2]]
    short = prefixes + [m[3]] * (m[3] is not None)
    counts = (len(m[2]), 64), (len(views), 512), (len(runs), 128), (len(m[9]), 32), (sum(len(b[3]) for b in m[9]), 512)
    limits = *counts, (sum(map(len, long + short)), 8192), *((len(k), 64) for k in long), *((len(k), 32) for k in short)
    if any(count > limit for count, limit in limits): return 1
    if prefixes != sorted(set(prefixes)): return 2
    if any(a != b and b.startswith(a) for a in prefixes for b in prefixes): return 3
    for v in views:
        ranges = [[[0, v[2]], None if v[3] is None else [0, v[3]]]] + ([v[4][:2]] if v[4] else [])
        key = max(b'' if not r[0] else r[0][1] + b'\0' * r[0][0] for r in ranges)
        if any(r[1] and not (key < r[1][1] or key == r[1][1] and r[1][0] == 0) for r in ranges): return 4
    for r in runs:
        if not r or any(max(a[2], a[3] or b'') >= b[2] for a, b in zip(r, r[1:])): return 5
    return None

def expected(b):
    if len(b) > 65536: return 'refused 2 at 0'
    at = malformed(b)
    if at is not None: return 'refused 18 at %d' % at
    value = parse(b, 0)[0]
    at = wrong(value, MANIFEST)
    if at is not None: return 'refused 19 at %d' % at
    at = broken(plain(value))
    return 'ok' if at is None else 'refused 1 at %d' % at

def main():
    calls = []
    for line in sys.stdin.buffer.read().split(b'\n'):
        try:
            word = line.decode()[5:]
            if line[:5] == b'read ': calls.append((line, bytes.fromhex('' if word == '-' else word)))
        except ValueError: pass                 # malformed, and not this program's business
    answers = subprocess.run(sys.argv[1:2], input=b'\n'.join(c for c, _ in calls) + b'\n', capture_output=True).stdout.decode().split('\n')
    seen, different = {}, 0
    for (line, b), answer in zip(calls, answers):
        if answer == 'unknown': continue
        want, got = expected(b), 'ok' if answer.startswith('ok ') else answer
        number = want.rsplit(' at', 1)[0]
        seen[number] = seen.get(number, 0) + 1
        if want != got:
            different += 1
            if different < 4: print(line.decode()[:300], 'wanted', want, 'got', got[:80])
    print(', '.join('%s %d' % s for s in sorted(seen.items())), '|', different, 'different')
    return 1 if different or len(answers) != len(calls) + 1 else 0

if __name__ == '__main__': sys.exit(main())
