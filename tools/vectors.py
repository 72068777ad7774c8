#!/usr/bin/python3
# Vectors of MessagePack for crates/msgpack_vectors: its stdin (each vector behind its length in two bytes) and the stdout that
# must come of it, one line a vector: `good` with what the value is, or `bad P`. Whether a vector is good, what it is, and where
# the next value starts, Debian's python3-msgpack says; the places inside cut and too deep vectors, which it does not tell, are those
# of the small model below, held against the library's verdict.
#   /usr/bin/python3 tools/vectors.py
import os, struct
import msgpack

def read(data):
    """The value at the start of data and how many bytes it takes; None where the library refuses."""
    u = msgpack.Unpacker(raw=True, strict_map_key=False, object_pairs_hook=lambda ps: ('pairs', len(ps)), max_buffer_size=1 << 20)
    u.feed(data)
    try:
        return u.unpack(), u.tell()
    except (msgpack.exceptions.FormatError, msgpack.exceptions.OutOfData, ValueError):
        return None

class Bad(Exception): pass

LENGTHS = {0xc4: ('B', 0), 0xc5: ('>H', 0), 0xc6: ('>I', 0), 0xc7: ('B', 1), 0xc8: ('>H', 1), 0xc9: ('>I', 1), 0xd9: ('B', 0), 0xda: ('>H', 0), 0xdb: ('>I', 0)}
FIXED = {0xc0: 0, 0xc2: 0, 0xc3: 0, 0xca: 4, 0xcb: 8, 0xcc: 1, 0xcd: 2, 0xce: 4, 0xcf: 8, 0xd0: 1, 0xd1: 2, 0xd2: 4, 0xd3: 8, 0xd4: 2, 0xd5: 3, 0xd6: 5, 0xd7: 9, 0xd8: 17}
GROUPS = {0xdc: ('>H', 1), 0xdd: ('>I', 1), 0xde: ('>H', 2), 0xdf: ('>I', 2)}

def number(data, at, code, start):
    size = struct.calcsize(code)
    if len(data) < at + size: raise Bad(start)
    return struct.unpack(code, data[at:at + size])[0], at + size

def after(data, at, depth):
    """The place after the value at `at`, which stands inside `depth` arrays and maps."""
    if at >= len(data): raise Bad(at)
    b = data[at]
    if b < 0x80 or b >= 0xe0: end = at + 1
    elif 0xa0 <= b < 0xc0: end = at + 1 + (b & 31)
    elif b in FIXED: end = at + 1 + FIXED[b]
    elif b in LENGTHS:
        n, end = number(data, at + 1, LENGTHS[b][0], at)
        end += LENGTHS[b][1] + n
    elif b == 0xc1: raise Bad(at)
    else:
        if b < 0xa0: n, p = (b & 15) * (2 if b < 0x90 else 1), at + 1
        else:
            n, p = number(data, at + 1, GROUPS[b][0], at)
            n *= GROUPS[b][1]
        if depth == 16: raise Bad(at)
        for _ in range(n): p = after(data, p, depth + 1)
        return p
    if end > len(data): raise Bad(at)
    return end

def value(v):
    if v is None: return 'nil'
    if v is True or v is False: return str(v).lower()
    if isinstance(v, int): return f'uint {v}' if v >= 0 else f'minus {-1 - v}'
    if isinstance(v, tuple) and v[0] == 'pairs': return f'map {v[1]}'
    if isinstance(v, list): return f'array {len(v)}'
    return 'other'

def is_bin(data): return data[0] in (0xc4, 0xc5, 0xc6)

def line(data, deep):
    got = read(data)
    try:
        end, bad = after(data, 0, 0), None
    except Bad as e:
        bad = e.args[0]
    if not deep and (got is None) != (bad is not None): raise SystemExit(f'{data.hex()}: {got} {bad}')
    if bad is not None: return f'bad {bad}'
    if got[1] != end: raise SystemExit(f'{data.hex()}: {got} {end}')
    if end < len(data): return f'bad {end}'
    return 'good ' + (f'bin {len(got[0])}' if is_bin(data) else value(got[0]))

vectors = []
def add(data, deep=False): vectors.append((bytes(data), line(bytes(data), deep)))

# every first byte: alone, and before zeros, so that what is left over starts where its value ends
for b in range(256):
    add([b])
    add([b] + [0] * 40)
# every width of a number at its edges; the shortest form and the longer ones
for tag, width in ((0xcc, 1), (0xcd, 2), (0xce, 4), (0xcf, 8), (0xd0, 1), (0xd1, 2), (0xd2, 4), (0xd3, 8)):
    for first, rest in ((0, 0), (0, 1), (0x7f, 0xff), (0x80, 0), (0xff, 0xff), (0, 0xff)):
        add([tag, first] + [rest] * (width - 1))
for n in (0, 127, 128, 255, 256, 65535, 65536, 2**32 - 1, 2**32, 2**63 - 1, 2**63, 2**64 - 1, -1, -32, -33, -128, -129, -2**15, -2**15 - 1, -2**31, -2**31 - 1, -2**63):
    add(msgpack.packb(n))
# every width of a length and of a count
for tag, code, extra in ((0xc4, 'B', 0), (0xc5, '>H', 0), (0xc6, '>I', 0), (0xd9, 'B', 0), (0xda, '>H', 0), (0xdb, '>I', 0), (0xc7, 'B', 1), (0xc8, '>H', 1), (0xc9, '>I', 1)):
    for n in (0, 1, 255) + ((256, 300) if code != 'B' else ()):
        body = bytes([tag]) + struct.pack(code, n) + b'\x05' * extra + b'\x61' * n
        for data in (body, body[:-1], body + b'\xc0'): add(data)
for tag, code, each in ((0xdc, '>H', 1), (0xdd, '>I', 1), (0xde, '>H', 2), (0xdf, '>I', 2)):
    for n in (0, 1, 15, 16, 256):
        body = bytes([tag]) + struct.pack(code, n) + b'\x07' * (n * each)
        for data in (body, body[:-1], body + b'\xc0'): add(data)
# a count far above the bytes that are left
for tag in (0xdd, 0xdf): add([tag, 0xff, 0xff, 0xff, 0xff, 0xc0, 0xc0, 0xc0], deep=True)
for tag in (0xc6, 0xc9, 0xdb): add([tag, 0xff, 0xff, 0xff, 0xff, 0xc0, 0xc0, 0xc0])
# depth 16 and 17, by arrays and by maps, empty or not
for n in (15, 16, 17):
    for inside in (b'', b'\xc0', b'\xc1', b'\x90', b'\x80'):
        add(b'\x91' * n + inside, deep=True)
        add(b'\x81\x00' * n + inside, deep=True)
# the new manifest and a value of every kind, cut at every byte
new = bytes.fromhex('9cc394c0c0909090c00100d38000000000000000000090' + '0000')
mixed = msgpack.packb([1, -1, None, True, 1.5, 'key', b'bytes', {'a': [1, 2, {b'k': 300}]}, msgpack.ExtType(5, b'xyz'), msgpack.ExtType(6, b'abcd'), 70000, -70000, 'x' * 33, b'y' * 20])
for sample in (new, mixed):
    for cut in range(len(sample) + 1): add(sample[:cut])
    add(sample + b'\x00')

top = os.path.join(os.path.dirname(os.path.dirname(os.path.abspath(__file__))), 'crates', 'msgpack_vectors')
with open(os.path.join(top, 'stdin'), 'wb') as f: f.write(b''.join(struct.pack('>H', len(d)) + d for d, _ in vectors))
with open(os.path.join(top, 'stdout'), 'w') as f: f.write(''.join(l + '\n' for _, l in vectors))
print(len(vectors), 'vectors,', sum(len(d) + 2 for d, _ in vectors), 'bytes')
