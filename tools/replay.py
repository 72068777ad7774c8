#!/usr/bin/env python3
# The list that crates/replay and crates/replay_union play through the port's entry points under `rt ci`: calls with the original's answers.
#   tools/replay.py --list    asks the oracle and writes tests/data/replay.txt: a call, then `= ` and its answer
#   tools/replay.py           writes stdin and stdout of both programs from tests/data/replay.txt
#   tools/replay.py --same    says whether they are as it would write them
#   tools/replay.py --check   says so, and whether the list is as the oracle answers
# It needs Python's standard library, and for --list and --check cargo, to ask the oracle.
#
# For crates/replay stdin is a row of parts, one for each call. A part is its length in two bytes, highest first, and so many bytes. In a call's part
# stand the operation in one byte (its place in OPERATIONS) and the operation's parts: the call's words as bytes; ids joined are one
# part. Ranges are parts of numbers of two bytes, six for each: of its start and of its end the kind (0 unbounded, 1 included,
# 2 excluded), the place and the length of the key; the places are in one part before them, the bytes of the call's ranges one
# after the other. A filter is a number of two bytes and the mask's eight. An absent word is a part of no bytes, and a missing own range
# six numbers 0. stdout is the answers, one a line, as the line protocol has them.
#
# For crates/replay_union stdin is a row of MessagePack's byte strings, one for each union. In it stand three more: the manifests one after
# the other, the paths so, and a row of MessagePack's numbers. These are four lists: where each manifest ends, where each path ends,
# the checkpoints and the fresh ids, two words each; before the lists stand five numbers, the place in the row at which each
# list begins and the last one ends. stdout has for each union a line with the refusal's number and place, or with 0 and how many
# bytes follow on the next.
#
# Each program names its operations in a line `// replays: read lookup ..`. Calls of an operation that neither names are left out.
import os, re, subprocess, sys

os.chdir(os.path.join(os.path.dirname(os.path.abspath(__file__)), '..'))
LIST, PROGRAMS = 'tests/data/replay.txt', ['replay', 'replay_union']
OPERATIONS = ['read', 'lookup', 'insert', 'merge_from_writer', 'merge_from_compactor', 'select', 'project', 'owned', 'clone', 'union']
# All frames are read at once by a program whose buffer has 65,536 bytes: so many bytes are for each operation.
SHARE = 6400
SEED = 20


# ---- the list

def built(name):
    subprocess.run(['cargo', 'build', '--quiet', '--release', '--offline', '--manifest-path', 'host/Cargo.toml', '-p', name], check=True)
    return os.path.join(os.environ.get('CARGO_TARGET_DIR', 'host/target'), 'release', name)


def asked(calls):
    run = subprocess.run([built('oracle')], input='\n'.join(calls) + '\n', capture_output=True, text=True, check=True)
    return run.stdout.split('\n')[:-1]


def look(answer):
    """What is told apart when calls are picked: `ok`, `ok window`, `refused 3` .."""
    words = answer.split(' ')
    told = words[0] == 'refused' or words[1] in ('unsegmented', 'segment', 'absent', 'found', 'entered', 'window', '.')
    return ' '.join(words[:2]) if told else words[0]


def picked(operation):
    """Calls of every look in turn, shorter and longer ones, until the share is used up."""
    text = subprocess.run([built('calls'), str(SEED), '20000', operation], capture_output=True, text=True, check=True).stdout
    calls = sorted({call for call in text.split('\n') if call.startswith(operation + ' ') and call.isascii() and len(call) < 2400})
    looks = {}
    for call, answer in zip(calls, asked(calls)):
        if answer.split(' ')[0] in ('ok', 'refused'):
            looks.setdefault(look(answer), []).append((call, answer))
    rows = []
    for pairs in looks.values():
        pairs.sort(key=lambda pair: (len(pair[0]), pair[0]))
        # The shortest, the longest that is short enough, and those at even steps between.
        few = [pair for pair in pairs if len(frame(pair[0])) < SHARE // 8] or pairs[:1]
        steps = [few[i * (len(few) - 1) // 29] for i in range(30)]
        rows.append(list(dict.fromkeys(steps)))
    chosen, left = [], SHARE
    for turn in range(30):
        for row in rows:
            if turn < len(row) and len(frame(row[turn][0])) <= left:
                chosen.append(row[turn])
                left -= len(frame(row[turn][0]))
    return chosen


def read_list():
    lines = [line for line in open(LIST, encoding='ascii').read().split('\n') if line and not line.startswith('#')]
    return list(zip(lines[::2], (line[2:] for line in lines[1::2])))


HEAD = """\
# Calls of the line protocol, each with the original's answer on the line after it, behind "= ". Played through the proved entry points by
# crates/replay and crates/replay_union under `rt ci`, so that the port is held against the original where there is no Rust.
# How it was made: `tools/replay.py --list` had the generator (host/calls, seed %d) make 20,000 calls of each operation, asked the
# oracle (host/oracle, the original's mod.rs), put aside what it skips, and took from every kind of answer in turn the shortest, the
# longest and some between, %s bytes for each operation. The answers are the oracle's and no other's; `tools/replay.py --check`
# asks it again.
"""


def list_text():
    text = HEAD % (SEED, format(SHARE, ','))
    for operation in OPERATIONS:
        for call, answer in picked(operation):
            text += '%s\n= %s\n' % (call, answer)
    return text


# ---- frames

def raw(word):
    return b'' if word in ('-', '.') else bytes.fromhex(word)


def part(data):
    return len(data).to_bytes(2, 'big') + data


def head(data, at):
    """The value at a place: its first byte, its number or length, and where what follows begins."""
    first = data[at]
    if first < 0x80 or first == 0xc0: return first, first, at + 1
    if 0x90 <= first < 0xa0: return 0x90, first & 15, at + 1
    width = {0xc4: 1, 0xc5: 2, 0xc6: 4, 0xcc: 1, 0xcd: 2, 0xce: 4, 0xcf: 8, 0xd0: 1, 0xd1: 2, 0xd2: 4, 0xd3: 8, 0xdc: 2, 0xdd: 4}[first]
    return {0xdc: 0x90, 0xdd: 0x90}.get(first, first), int.from_bytes(data[at + 1:at + 1 + width], 'big'), at + 1 + width


def bounds(data, base):
    """The six numbers of a range whose bytes stand at a place. Ranges with further elements are not among the calls."""
    numbers, (_, count, at) = [], head(data, 0)
    assert count == 2
    for _ in range(2):
        first, count, at = head(data, at)
        if first == 0xc0:
            numbers += [0, 0, 0]
            continue
        assert count == 2
        _, kind, at = head(data, at)
        _, length, at = head(data, at)
        numbers += [kind + 1, base + at, length]
        at += length
    return numbers


def ranges(*lists):
    """The bytes of all ranges as one part, and for each list of ranges the part of its numbers."""
    data, parts = b'', []
    for words in lists:
        numbers = []
        for word in words:
            numbers += [0] * 6 if word == '.' else bounds(raw(word), len(data))
            data += raw(word)
        parts.append(part(b''.join(number.to_bytes(2, 'big') for number in numbers)))
    return [part(data)] + parts


def listed(word):
    return [] if word == '.' else word.split(',')


def filtered(word):
    return b'' if word == '.' else int(word[0]).to_bytes(2, 'big') + bytes.fromhex(word[2:])


def frame(call):
    words = call.split(' ')
    operation, words = words[0], words[1:]
    if operation == 'union':
        return union_frame(listed(words[0]), [source.split(':') for source in words[1:]])
    if operation == 'select':
        inside = part(raw(words[0])) + b''.join(ranges([words[1]]))
    elif operation == 'project':
        args, whole, own = ranges(listed(words[1]), listed(words[3]))
        inside = part(raw(words[0])) + args + whole + part(filtered(words[2])) + own
    elif operation == 'clone':
        inside = b''.join(part(raw(word)) for word in words[:3]) + part(b''.join(map(raw, words[3].split(','))))
    else:
        inside = b''.join(part(raw(word)) for word in words)
    return part(bytes([OPERATIONS.index(operation)]) + inside)


# ---- frames of unions

def string(data):
    return b'\xc5' + part(data)


def number(x):
    return bytes([x]) if x < 0x80 else b'\xcd' + x.to_bytes(2, 'big') if x < 0x10000 else b'\xcf' + x.to_bytes(8, 'big')


def ends(parts):
    return [sum(map(len, parts[:i + 1])) for i in range(len(parts))]


def halves(ids):
    return [int(word[i:i + 16], 16) for word in ids for i in (0, 16)]


def union_frame(fresh, sources):
    manifests, paths = ([raw(source[i]) for source in sources] for i in range(2))
    lists = [ends(manifests), ends(paths), halves(source[2] for source in sources), halves(fresh)]
    places = [5 + sum(map(len, lists[:i])) for i in range(5)]
    return string(string(b''.join(manifests)) + string(b''.join(paths)) + string(b''.join(map(number, sum(lists, places)))))


# ---- what the programs are given

def shown(call, answer):
    """What a program writes for an answer of the line protocol."""
    words = answer.split(' ')
    if not call.startswith('union '):
        return answer.encode() + b'\n'
    if words[0] == 'refused':
        return ('%s %s\n' % (words[1], words[3])).encode()
    data = raw(words[1])
    return b'0 %d\n' % len(data) + data + b'\n'


def played(program):
    """The operations that a program has: those that it names in a line `// replays: read lookup ..`."""
    source = open('crates/%s/src/main.rt' % program, encoding='utf-8').read()
    return re.search(r'// replays: ([a-z_ ]+)', source).group(1).split()


def files():
    """The path of each file, and what is to stand in it."""
    for program in PROGRAMS:
        pairs = [pair for pair in read_list() if pair[0].split(' ')[0] in played(program)]
        yield 'crates/%s/stdin' % program, b''.join(frame(call) for call, _ in pairs)
        yield 'crates/%s/stdout' % program, b''.join(shown(call, answer) for call, answer in pairs)


def main(words):
    if words == ['--list']:
        text = list_text()
        with open(LIST, 'w', encoding='ascii') as f:
            f.write(text)
    elif words == []:
        for path, data in files():
            with open(path, 'wb') as f:
                f.write(data)
    elif words in (['--same'], ['--check']):
        pairs = read_list()
        if words == ['--check'] and asked([call for call, _ in pairs]) != [answer for _, answer in pairs]:
            sys.exit(LIST + ':1: not what the oracle answers')
        for path, data in files():
            with open(path, 'rb') as f:
                if f.read() != data:
                    sys.exit(path + ':1: not what tools/replay.py makes of ' + LIST)
        print('%d calls' % len(pairs))
    else:
        sys.exit('usage: tools/replay.py [--list | --same | --check]')


main(sys.argv[1:])
