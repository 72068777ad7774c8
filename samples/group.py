#!/usr/bin/env python3
# Makes the sample of a hospital group: the archives' manifests of two hospitals, north.mp and south.mp, and group.calls, four calls on them in
# the line protocol (docs/PROTOCOL.md): North gets an X-ray scanner, the images of one week are selected, one scanner's images of that week are
# projected, and the two archives become one. group.answers holds what the original Rust answers; tests/oracle asks it, and the model, and tests/port
# the port.
#   python3 samples/group.py          writes north.mp, south.mp and group.calls
#   python3 samples/group.py --check  says whether they are as it would write them
import os, sys

sys.path.insert(0, os.path.dirname(os.path.abspath(__file__)))
from make_samples import NIL, array, binary, least_i64, uint, write

YES = b'\xc3'


def ulid(site, kind, n):
    """The site, what it names (1 a table, 2 a view, 3 a checkpoint) and a number, one byte each to be told apart by eye."""
    return bytes([site, kind] + [0] * 13 + [n])


def view(site, n, first, last):
    return array([binary(ulid(site, 2, n)), binary(ulid(site, 1, n)), binary(first), binary(last), NIL])


def segment(prefix, l0, runs):
    return array([binary(prefix), array([NIL, NIL, array(l0), array([array([uint(i), array(views)]) for i, views in runs])])])


def manifest(segments, seq, borrows):
    tree = array([NIL, NIL, array([]), array([])])
    return array([YES, tree, array(segments), binary(b'scanner'), uint(1), uint(0), least_i64(), uint(seq), uint(0), array(borrows), uint(1), uint(1)])


def included(key):
    return array([uint(0), binary(key)])


def excluded(key):
    return array([uint(1), binary(key)])


# Keys are scanner, day, image. North's tomography ends before South's begins: the week of day 20 went to South.
NORTH = manifest([
    segment(b'ct/', [view(1, 1, b'ct/18/001', b'ct/19/350')], [(0, [view(1, 2, b'ct/02/001', b'ct/09/999'), view(1, 3, b'ct/10/001', b'ct/17/999')])]),
    segment(b'mr/', [view(1, 4, b'mr/11/001', b'mr/12/080')], [])], 41, [])
SOUTH = manifest([
    segment(b'ct/', [view(2, 1, b'ct/20/001', b'ct/26/410')], []),
    segment(b'us/', [], [(3, [view(2, 2, b'us/01/001', b'us/26/090')])])], 77,
    [array([binary(b'south/old'), binary(ulid(2, 3, 1)), binary(ulid(2, 3, 2)), array([binary(ulid(2, 1, 2))])])])

CALLS = '\n'.join([
    'insert %s %s' % (NORTH.hex(), b'xr/'.hex()),
    'select %s %s' % (NORTH.hex(), array([included(b'ct/12/001'), excluded(b'ct/19/')]).hex()),
    'project %s %s 0:0000000000000001 .' % (NORTH.hex(), array([included(b'ct/12/001'), excluded(b'ct/19/')]).hex()),
    'union %s %s' % (','.join(ulid(9, 3, n).hex() for n in (1, 2, 3)), ' '.join(
        '%s:%s:%s' % (m.hex(), path.hex(), ulid(site, 3, 9).hex()) for m, path, site in ((SOUTH, b'south/now', 2), (NORTH, b'north/now', 1)))),
]) + '\n'

if __name__ == '__main__':
    write({'north.mp': NORTH, 'south.mp': SOUTH, 'group.calls': CALLS.encode()})
