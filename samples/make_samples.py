#!/usr/bin/env python3
# Makes the sample manifests of this folder: new.mp, the new manifest of document 01, and limits.mp, a lawful manifest at
# every limit of L1 at once: 64 segments, 512 views, 128 runs, 32 borrows, 512 borrowed ids, 8,192 bytes, with a prefix and a
# name of 32 bytes and a key and a path of 64. It needs Python's standard library alone and writes the shortest forms.
#   python3 samples/make_samples.py          writes the files
#   python3 samples/make_samples.py --check  says whether they are as it would write them
import os, struct, sys

HERE = os.path.dirname(os.path.abspath(__file__))


def uint(n):
    if n < 0x80: return bytes([n])
    if n < 1 << 8: return b'\xcc' + struct.pack('>B', n)
    if n < 1 << 16: return b'\xcd' + struct.pack('>H', n)
    if n < 1 << 32: return b'\xce' + struct.pack('>I', n)
    return b'\xcf' + struct.pack('>Q', n)


def least_i64():
    return b'\xd3' + struct.pack('>q', -(1 << 63))


def binary(b):
    if len(b) < 1 << 8: return b'\xc4' + struct.pack('>B', len(b)) + b
    return b'\xc5' + struct.pack('>H', len(b)) + b


def array(parts):
    n = len(parts)
    head = bytes([0x90 + n]) if n < 16 else b'\xdc' + struct.pack('>H', n)
    return head + b''.join(parts)


NIL = b'\xc0'


def ulid(kind, n):
    return binary(struct.pack('>QQ', kind << 56 | 0x0123456789, n))


class Sample:
    """Counts what it is made of, so that the limits can be met exactly."""

    def __init__(self):
        self.bytes = self.views = self.runs = self.ids = 0

    def key(self, b):
        self.bytes += len(b)
        return binary(b)

    def bound(self, kind, b):
        return NIL if kind is None else array([uint(kind), self.key(b)])

    def view(self, first, last, seen=None):
        self.views += 1
        return array([ulid(1, self.views), ulid(2, self.views), self.key(first), NIL if last is None else self.key(last),
                      NIL if seen is None else array([self.bound(*seen[0]), self.bound(*seen[1])])])

    def run(self, n, views):
        self.runs += 1
        return array([uint(n), array(views)])

    def borrow(self, path, ids):
        self.ids += len(ids)
        return array([self.key(path), ulid(4, len(path)), NIL if len(path) % 2 else ulid(5, len(path)), array([ulid(3, i) for i in ids])])


def limits():
    s = Sample()
    segments = []
    for i in range(64):
        prefix = b's/%02d/' % i
        if i == 63: prefix = prefix + b'p' * (32 - len(prefix))
        p = s.key(prefix)
        l0 = [s.view(prefix + b'a', prefix + b'z')]
        runs = [s.run(1 - r, [s.view(prefix + bytes([16 * j + 1]), prefix + bytes([16 * j + 8])) for j in range(3)]) for r in range(2)]
        segments.append(array([p, array([ulid(1, 1000 + i), NIL, array(l0), array(runs)])]))
    name = s.key(b'first-two-slashes-of-the-key-v01')
    borrows = [s.borrow(b'archive/%02d/' % i + b'x' * (53 if i == 31 else 13), range(16 * i, 16 * i + 16)) for i in range(32)]
    views = [s.view(b'k' * 64, b'k' * 63 + b'l')]
    while len(views) < 63:
        first = b'u%02d' % len(views)
        views.append(s.view(first, first + b'z' * 10))
    # the last view takes what is left of the 8,192 bytes: its own key, and its visible range's two bounds
    left = 8192 - s.bytes - 3
    assert 2 <= left <= 128, left
    views.append(s.view(b'u63', None, ((0, b'u' * (left // 2)), (1, b'v' * (left - left // 2)))))
    tree = array([NIL, ulid(2, 9), array(views), array([])])
    assert (len(segments), s.views, s.runs, len(borrows), s.ids, s.bytes) == (64, 512, 128, 32, 512, 8192), vars(s)
    return array([b'\xc3', tree, array(segments), name, uint(2 ** 64 - 1), uint(2 ** 32), least_i64(), uint(65535), uint(256), array(borrows), uint(127), uint(128)])


FILES = {
    'new.mp': bytes.fromhex('9cc394c0c0909090c00100d380000000000000000000900000'),
    'limits.mp': limits(),
}


def write(files):
    """Writes them to this folder; with --check says whether they are there already, to the byte."""
    for name, data in files.items():
        path = os.path.join(HERE, name)
        if '--check' in sys.argv:
            with open(path, 'rb') as f:
                if f.read() != data: sys.exit(name + ' is not what its script writes')
        else:
            with open(path, 'wb') as f: f.write(data)


if __name__ == '__main__': write(FILES)
