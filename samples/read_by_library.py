#!/usr/bin/python3
# What an outside MessagePack library (Debian's python3-msgpack, run by Debian's own python3) reads in limits.mp, a line for each
# value, indented by its depth; bytes in hexadecimal:
#   /usr/bin/python3 samples/read_by_library.py > samples/limits.read
import os
import msgpack

HERE = os.path.dirname(os.path.abspath(__file__))


def show(value, depth=0):
    pad = ' ' * depth
    if isinstance(value, list):
        print(pad + 'array %d' % len(value))
        for part in value: show(part, depth + 1)
    elif isinstance(value, bytes):
        print(pad + 'bin ' + (value.hex() or '-'))
    else:
        print(pad + repr(value))


with open(os.path.join(HERE, 'limits.mp'), 'rb') as f:
    show(msgpack.unpackb(f.read(), raw=True, strict_map_key=False))
