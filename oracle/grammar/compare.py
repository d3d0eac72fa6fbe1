#!/usr/bin/env python3
"""Holds the grammar of the specification to what the library answers: compare.py LIBRARY [--specs FOLDER] [STREAM ..]

LIBRARY is the library as a shared object, FOLDER a copy of crates/grammar/specs, a STREAM has bundles; without one it is the stored stream.
For each sheet that the library does not refuse:

- it can be derived exactly where the library finds no error,
- no symbol comes out in two ways at any place,
- the derivation's tree is the library's, record for record,
- the tree's words are the sheet's.

The first sheet that differs goes to oracle/target/difference.bundle, what differs to difference.txt beside it.
"""
import argparse
import collections
import ctypes
import os
import struct
import sys
import threading

import deriving
import reading
import shaping

ORACLE = os.path.join(os.path.dirname(os.path.abspath(__file__)), '..')
CRATES = os.path.join(ORACLE, '..', 'crates')
SPECS = os.path.join(CRATES, 'grammar', 'specs')
STORED = os.path.join(CRATES, 'replay', 'stdin')
TARGET = os.path.join(ORACLE, 'target')
NODES, ERRORS, EXPECTED = 8192, 64, 65536       # records and kinds, the most that count
ALLOWANCE = 100000                              # as the lister has it: more would let a sheet of attempts run on and on
NO_BUNDLE = 12                                  # the lister's refusal of what is no bundle

Answer = collections.namedtuple('Answer', 'number errors records')


class Difference(Exception):
    """What the grammar and the library do not agree on."""


class Library:
    """The library's one function, with buffers to lend it."""

    def __init__(self, path):
        self.parse = ctypes.CDLL(os.path.abspath(path)).lucia_parse
        self.parse.restype = ctypes.c_uint8
        pointer, size = ctypes.c_void_p, ctypes.c_size_t
        self.parse.argtypes = [pointer, size, pointer, size, ctypes.c_uint32, pointer, size, pointer, size, pointer, size, pointer]
        self.nodes, self.errors = (ctypes.c_uint32 * (8 * NODES))(), (ctypes.c_uint32 * (6 * ERRORS))()
        self.expected, self.counts = (ctypes.c_uint8 * EXPECTED)(), (ctypes.c_uint32 * 4)()

    def answer(self, text, tokens):
        """What it answers. The text and the tokens are lent with one element more than they have: a pointer to nothing may be null."""
        flat = [word for token in tokens for word in token]
        lent, lent_words = (ctypes.c_uint8 * (len(text) + 1))(*text), (ctypes.c_uint32 * (len(flat) + 1))(*flat)
        number = self.parse(lent, len(text), lent_words, len(flat), ALLOWANCE, self.nodes, len(self.nodes), self.errors, len(self.errors),
                            self.expected, len(self.expected), self.counts)
        _, nodes, errors, _ = self.counts
        return Answer(number, errors, [tuple(self.nodes[8 * i:8 * i + 8]) for i in range(nodes)])


def walked(records):
    """The library's records as they are met on a walk from the root, which is the last one, each with its level."""
    found, left = [], [(0, len(records))]
    while left:
        level, link = left.pop()
        kind, start, end, first, following, one, two, flags = records[link - 1]
        found.append((level, kind, start, end, one, two, flags))
        left += [(below, other) for below, other in ((level, following), (level + 1, first)) if other]
        if len(found) > len(records):
            raise Difference('the links of the records lead round in a ring')
    return found


def pieces(path):
    """The pieces of a stream, one at a time."""
    with open(path, 'rb') as stream:
        while head := stream.read(4):
            size, = struct.unpack('<I', head)
            piece = stream.read(size)
            assert len(piece) == size, path + ' is cut short'
            yield piece


def unbundled(piece):
    """Text and tokens of a bundle, None where it is cut short or something is left over: the stored stream has such ones."""
    try:
        size, = struct.unpack_from('<I', piece)
        count, = struct.unpack_from('<I', piece, 4 + size)
    except struct.error:
        return None
    rest = piece[8 + size:]
    return (piece[4:4 + size], list(struct.iter_unpack('<BII', rest))) if len(rest) == 9 * count else None


def used(derivation):
    """The productions of a derivation."""
    left = [derivation]
    while left:
        one = left.pop()
        yield one.production
        left += one.parts.values()


def compare(grammar, sheet, answer):
    """The productions that a sheet is derived by, none where it has errors."""
    deriver = deriving.Deriver(grammar, sheet)
    found = deriver.whole()
    if deriver.doubled:
        raise Difference('%s at token %d comes out in two ways' % deriver.doubled[0])
    if bool(found) != (answer.errors == 0):
        raise Difference('the grammar %s, the library finds %d errors' % ('derives it' if found else 'does not derive it', answer.errors))
    if not found:
        return None
    tree = shaping.Shaper(grammar, sheet).program(found[0])
    ours, theirs = list(shaping.walked(tree)), walked(answer.records)
    if ours != theirs:
        at = next((i for i, (one, other) in enumerate(zip(ours, theirs)) if one != other), min(len(ours), len(theirs)))
        raise Difference('record %d (level, %s):\ngrammar %s\nlibrary %s' % (at, ', '.join(shaping.LABEL), ours[at:at + 1], theirs[at:at + 1]))
    if list(shaping.words(grammar, tree)) != [(start, end) for kind, start, end in sheet.tokens if kind in grammar.word_kinds]:
        raise Difference("the tree's words are not those of the tokens")
    return set(used(found[0].derivation))


def run(grammar, library, streams):
    """All sheets of the streams: how many came out how, and how many sheets each production was used in."""
    outcomes, uses = collections.Counter(), collections.Counter()
    for piece in (piece for stream in streams for piece in pieces(stream)):
        bundle = unbundled(piece)
        answer = library.answer(*bundle) if bundle else Answer(NO_BUNDLE, 0, [])
        if answer.number:
            outcomes['refused %d' % answer.number] += 1
            continue
        try:
            productions = compare(grammar, deriving.Sheet(*bundle, grammar.numbers), answer)
        except Difference as difference:
            report(piece, str(difference))
            raise
        outcomes['errors' if productions is None else 'derived'] += 1
        uses.update(productions or ())
    return outcomes, uses


def report(piece, message):
    """Keeps a sheet that differs, under the names that oracle/scale.sh has for it."""
    os.makedirs(TARGET, exist_ok=True)
    with open(os.path.join(TARGET, 'difference.bundle'), 'wb') as file:
        file.write(piece)
    with open(os.path.join(TARGET, 'difference.txt'), 'w', encoding='utf-8') as file:
        file.write(message + '\n')


def told(grammar, outcomes, uses):
    """The outcome of a run in words. A production that no sheet uses has not been compared, so those are named."""
    refused = sorted((int(outcome.split()[1]), count) for outcome, count in outcomes.items() if outcome.startswith('refused'))
    every = [production.name for group in grammar.productions.values() for production in group]
    unused = [name for name in every if name not in uses]
    yield '%d sheets: %d derived, %d with errors and not derivable, %d refused and left out' % (
        sum(outcomes.values()), outcomes['derived'], outcomes['errors'], sum(count for _, count in refused))
    if refused:
        yield 'refused: ' + ', '.join('%d by %d' % (count, number) for number, count in refused)
    yield '%d of %d productions were used' % (len(uses), len(every))
    if unused:
        yield 'not used: ' + ', '.join(unused)


def main():
    """What to exit with: a message where something differs."""
    parser = argparse.ArgumentParser(description='Holds the grammar of the specification to what the library answers.')
    parser.add_argument('library', help='the library as a shared object')
    parser.add_argument('--specs', default=SPECS, help='a copy of crates/grammar/specs')
    parser.add_argument('streams', nargs='*', help='streams of bundles, otherwise the stored one')
    given = parser.parse_args()
    grammar = reading.read(given.specs, CRATES)
    try:
        outcomes, uses = run(grammar, Library(given.library), given.streams or [STORED])
    except Difference as difference:
        return '%s\nthe sheet is in oracle/target/difference.bundle' % difference
    print('\n'.join(told(grammar, outcomes, uses)))
    return 0


def deep(function):
    """Runs a function where recursion may go deep: a derivation is as deep as its list is long."""
    answer = []
    sys.setrecursionlimit(1000000)
    threading.stack_size(512 << 20)
    thread = threading.Thread(target=lambda: answer.append(function()))
    thread.start()
    thread.join()
    return answer[0] if answer else 'it ended early'


if __name__ == '__main__':
    sys.exit(deep(main))
