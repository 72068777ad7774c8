#!/usr/bin/python3
# What an outside implementation (Debian's python3-msgpack) says of each of the 256 first bytes, one line each:
#   HH never | HH nil | HH false | HH true
#   HH KIND 0 N     the first byte gives N by itself: the number; the count of elements or pairs; of str, ext and float how many bytes follow (ext: besides its type)
#   HH KIND W       the number, count or length stands in the W bytes after the first
# KIND is uint or int (a number; a negative one by itself is int), bin, str, ext, float, array, map.
# The library is only asked what it makes of bytes and how many it takes: every answer here is found by feeding it.
#   /usr/bin/python3 tools/first_bytes.py > crates/msgpack_show/stdout
import msgpack

def read(data):
    """The value at the start of data and how many bytes it takes; None where the library refuses the first byte."""
    u = msgpack.Unpacker(raw=True, strict_map_key=False, object_pairs_hook=lambda ps: ('pairs', len(ps)), max_buffer_size=1 << 20)
    u.feed(data)
    try:
        value = u.unpack()
    except msgpack.exceptions.FormatError:
        return None
    return value, u.tell()

def said(b):
    zeros = read(bytes([b]) + bytes(64))
    if zeros is None: return 'never'
    value, took = zeros
    if value is None: return 'nil'
    if value is False: return 'false'
    if value is True: return 'true'
    if isinstance(value, int):
        if took == 1: return f"{'uint' if value >= 0 else 'int'} 0 {value}"
        below, _ = read(bytes([b]) + b'\xff' * 64)
        if read(bytes([b]) + bytes(took - 2) + b'\x01')[0] != 1: raise SystemExit(f'{b:02x}: not big-endian')
        return f"{'uint' if below >= 0 else 'int'} {took - 1}"
    if isinstance(value, float): return f'float 0 {took - 1}'
    if isinstance(value, tuple) and value[0] == 'pairs': name, size, each = 'map', value[1], 2
    elif isinstance(value, list): name, size, each = 'array', len(value), 1
    elif isinstance(value, msgpack.ExtType): name, size, each = 'ext', len(value.data), 1
    elif isinstance(value, bytes): name, size, each = 'bytes', len(value), 1
    else: raise SystemExit(f'{b:02x}: {value!r}')
    extra = 1 if name == 'ext' else 0
    width = took - 1 - extra - size * each
    if name == 'bytes': name = told(b)
    if width == 0: return f'{name} 0 {size}'
    # the W bytes are the length: with 1 in the last of them there is one element, pair or byte more
    one, took_one = read(bytes([b]) + bytes(width - 1) + b'\x01' + bytes(64))
    if took_one != took + each: raise SystemExit(f'{b:02x}: no length')
    return f'{name} {width}'

def told(b):
    """str or bin, which the library gives as one type when it does not decode: decoded, they are not."""
    u = msgpack.Unpacker(raw=False, max_buffer_size=1 << 20)
    u.feed(bytes([b]) + bytes(64))
    return {str: 'str', bytes: 'bin'}[type(u.unpack())]

for b in range(256):
    print(f'{b:02x} {said(b)}')
