#!/usr/bin/env python3
"""The stored stream and its sets. All stored answers are one stream, so that one program reads them in one go; what is said of a set
needs it alone.

    sets.py join FOLDER OUT    the sets in FOLDER, NAME.bundles and NAME.listings, to OUT/all.bundles, OUT/all.listings and OUT/sets.txt
    sets.py cut FOLDER         the stored stream back to those files
    sets.py some FILE          some bundles of the stored stream: every 18th, and at each limit the one that is refused and the one before it, which
                               just passes

sets.txt has a line for each set, its name and its number of sheets, in the order of the stream. The stream of listings ends in one more
piece, which says how many sheets there were: a reader that stops early can't print it.
"""
import os
import struct
import sys

NAMES = ['domain', 'marked', 'entry']
STORED = os.path.join(os.path.dirname(os.path.abspath(__file__)), 'answers')


def pieces(path):
    with open(path, 'rb') as file:
        data = file.read()
    at, found = 0, []
    while at < len(data):
        size, = struct.unpack_from('<I', data, at)
        found.append(data[at:at + 4 + size])
        at += 4 + size
    assert at == len(data), path + ' is cut short'
    return found


def write(path, parts):
    with open(path, 'wb') as file:
        file.writelines(parts)


def closing(count):
    line = b'%d sheets\n' % count
    return struct.pack('<I', len(line)) + line


def join(folder, out):
    bundles = [pieces(os.path.join(folder, name + '.bundles')) for name in NAMES]
    listings = [pieces(os.path.join(folder, name + '.listings')) for name in NAMES]
    counts = [len(part) for part in bundles]
    assert counts == [len(part) for part in listings], 'a listing for each bundle'
    write(os.path.join(out, 'all.bundles'), sum(bundles, []))
    write(os.path.join(out, 'all.listings'), sum(listings, []) + [closing(sum(counts))])
    write(os.path.join(out, 'sets.txt'), [b'%s %d\n' % (name.encode(), count) for name, count in zip(NAMES, counts)])


def cut(folder):
    os.makedirs(folder, exist_ok=True)
    with open(os.path.join(STORED, 'sets.txt')) as file:
        sets = [(name, int(count)) for name, count in map(str.split, file)]
    total = sum(count for _, count in sets)
    bundles, listings = pieces(os.path.join(STORED, 'all.bundles')), pieces(os.path.join(STORED, 'all.listings'))
    assert len(bundles) == total and len(listings) == total + 1 and listings[-1] == closing(total), 'sets.txt is of another stream'
    at = 0
    for name, count in sets:
        write(os.path.join(folder, name + '.bundles'), bundles[at:at + count])
        write(os.path.join(folder, name + '.listings'), listings[at:at + count])
        at += count


def some(path):
    bundles, listings = pieces(os.path.join(STORED, 'all.bundles')), pieces(os.path.join(STORED, 'all.listings'))
    limits = [b'refused %d\n' % number for number in range(7, 12)]
    refused = [i for i in range(len(bundles)) if listings[i][4:] in limits]
    kept = {*range(17, len(bundles), 18), *refused, *(i - 1 for i in refused)}
    write(path, [bundles[i] for i in sorted(kept)])


if __name__ == '__main__':
    if sys.argv[1:2] == ['join'] and len(sys.argv) == 4:
        join(*sys.argv[2:])
    elif sys.argv[1:2] == ['cut'] and len(sys.argv) == 3:
        cut(sys.argv[2])
    elif sys.argv[1:2] == ['some'] and len(sys.argv) == 3:
        some(sys.argv[2])
    else:
        sys.exit(__doc__)
