#!/usr/bin/env python3
"""Makes the cases of list_cases, and lists them from the document and docs/LAYOUT.md alone: writes stdin and stdout beside itself.

A case is 128 words of 32 bits, little-endian: readings, node records, errors; how many words of the nodes, words of the errors, expected
kinds and bytes for the listing are lent; one unused; then 96 words of nodes (12 records) and 24 of errors (4 records). The expected kinds
are the program's own.
"""
import os
import re
import struct

HERE = os.path.dirname(os.path.abspath(__file__))
EXPECTED = [70, 29, 21, 31, 20, 24, 65, 27, 50, 4, 52, 54, 0, 255, 78, 9]
LAYOUT = open(os.path.join(HERE, '..', '..', 'docs', 'LAYOUT.md')).read()
KINDS = {int(n): name for n, name in re.findall(r'^\| (\d+) \| [A-Z_]+ \| `(\w+)` \|', LAYOUT, re.M)}
NUMBER = {const: int(n) for n, const in re.findall(r'^\| (\d+) \| ([A-Z_]+) \| `\w+` \|', LAYOUT, re.M)}
OPERATORS = {64: 'Add', 65: 'Sub', 66: 'Mul', 67: 'Div', 68: 'Rem', 25: 'And', 26: 'Or', 39: 'Eq', 40: 'Ne', 61: 'Lt', 41: 'Le', 62: 'Gt', 42: 'Ge', 23: 'Is'}
TYPES = ['Null', 'Bool', 'Int', 'Float', 'Str', 'Bytes', 'Table', 'Function', 'Effect', 'UserData']


def detail(kind, one, two):
    if kind == NUMBER['INT']:
        return [str(struct.unpack('<q', struct.pack('<II', one, two))[0])]
    if kind == NUMBER['UNARY']:
        return [{24: 'Not', 65: 'Neg'}.get(one, '')]
    if kind in (NUMBER['BINARY'], NUMBER['ASSIGN_OP']):
        return [OPERATORS.get(one, '')]
    if kind == NUMBER['TYPE_CHECK']:
        return [TYPES[one] if one < 10 else '']
    return []


def listing(case):
    lines = ['read 0 reads %d nodes %d errors %d' % (case['reads'], case['nodes'], case['errors'])]
    nodes, errors = case['node_words'][:case['lent_nodes']], case['error_words'][:case['lent_errors']]
    expected = EXPECTED[:case['lent_expected']]
    at = lambda words, i: words[i] if i < len(words) else 0
    left = min(case['nodes'], len(nodes) // 8)
    stack = [(case['nodes'], 0, True)]
    while stack and left:
        link, level, root = stack.pop()
        if link == 0:
            continue
        kind, start, end, first, following, one, two, _ = (at(nodes, 8 * (link - 1) + k) for k in range(8))
        lines.append(' '.join([str(level), KINDS.get(kind, ''), str(start), str(end)] + detail(kind, one, two)))
        left -= 1
        stack += [] if root else [(following, level, False)]
        stack.append((first, level + 1, False))
    for i in range(min(case['errors'], len(errors) // 6)):
        kind, found, start, end, place, count = errors[6 * i:6 * i + 6]
        fields = ['error'] + (['int'] if kind == 1 else []) + [found, start, end] + expected[place:place + count]
        lines.append(' '.join(map(str, fields)))
    text = ''.join(line + '\n' for line in lines)
    return text if len(text) <= case['room'] else 'no room\n'


CASES = []


def case(nodes=(), errors=(), count=None, faults=None, reads=0, lent_nodes=96, lent_errors=24, lent_expected=16, room=4096):
    words = [w for record in nodes for w in record]
    faulty = [w for record in errors for w in record]
    CASES.append(dict(reads=reads, nodes=len(nodes) if count is None else count, errors=len(errors) if faults is None else faults,
                      lent_nodes=lent_nodes, lent_errors=lent_errors, lent_expected=lent_expected, room=room,
                      node_words=(words + [0] * 96)[:96], error_words=(faulty + [0] * 24)[:24]))


def node(name, start, end, first=0, following=0, one=0, two=0, flags=0):
    return (NUMBER.get(name, name), start, end, first, following, one, two, flags)


EXAMPLE = [node('IDENT', 0, 1), node('TYPE_CHECK', 0, 8, 1, 3, 2, 5), node('IDENT', 11, 12), node('BINARY', 0, 12, 2, 0, 66), node('PROGRAM', 0, 12, 4, flags=1)]
case(EXAMPLE, reads=5)                                                         # the document's example
case([node('PROGRAM', 0, 0)])                                                  # the empty sheet
case([])                                                                       # no record at all
case(EXAMPLE, reads=5, room=113)                                               # just as long as its listing
case(EXAMPLE, reads=5, room=112)                                               # a byte short
case(EXAMPLE, room=0)                                                          # no buffer
for bits in (0, 1, 2 ** 63 - 1, 2 ** 63, 2 ** 64 - 1, 2 ** 32):                # integers and their signs
    case([node('INT', 0, 9, one=bits % 2 ** 32, two=bits // 2 ** 32), node('PROGRAM', 0, 9, 1)])
case([node('IDENT', 4, 5), node('UNARY', 0, 5, 1, one=24), node('IDENT', 7, 8), node('UNARY', 6, 8, 3, one=65), node('LIST', 0, 9, 2, flags=2)])
case([node('IDENT', 0, 1, following=2), node('INT', 5, 6, one=7), node('ASSIGN_OP', 0, 6, 1, one=65), node('PROGRAM', 0, 6, 3)])
case([node('IDENT', 0, 1), node('TYPE_CHECK', 0, 8, 1, one=9), node('TYPE_CHECK', 0, 8, 2, one=0), node('TYPE_CHECK', 0, 8, 3, one=10)])   # no such type
case([node('IDENT', 0, 1, following=2), node('IDENT', 2, 3, following=1), node('PROGRAM', 0, 3, 1)])    # next leads round
case([node('PAREN', 0, 1, first=1), node('PROGRAM', 0, 3, 1)])                 # a child of itself
case([node('PAREN', 0, 1, first=2), node('PROGRAM', 0, 3, 1)])                 # the root below itself
case([node('PROGRAM', 0, 3, first=9)], count=1)                                # a link to a record that is not in use
case([node('PROGRAM', 0, 3, first=2 ** 32 - 1, following=2 ** 32 - 1)] * 3)    # links past the buffer
case([node('PROGRAM', 0, 3, 2)] * 3, count=2 ** 32 - 1)                        # a count that no buffer has
case(EXAMPLE, lent_nodes=39)                                                   # the last record cut short
case(EXAMPLE, lent_nodes=7)                                                    # not one whole record
case([node(53, 1, 2), node(0, 1, 2), node(2 ** 32 - 1, 2 ** 32 - 1, 2 ** 32 - 1, 1, 2)])   # no such kinds
case([node('MEMBER', i, i + 1, i) for i in range(12)])                         # a chain
case([node('IDENT', i, i + 1, following=i + 2 if i < 10 else 0) for i in range(11)] + [node('PROGRAM', 0, 11, 1)])   # a long row
case([node(name, 0, 1, first=i) for i, name in enumerate(('NULL', 'BOOL', 'FLOAT', 'STR', 'BYTES', 'EXPR_BLOCK', 'FN', 'EXPR_EFFECT', 'TABLE', 'CALL', 'IF', 'MATCH'))])
case([node(name, 0, 1, first=i) for i, name in enumerate(('ASSIGN_UNPACK', 'EFFECT_HANDLER', 'TABLE_PATTERN_PAIR', 'TY_FUNCTION', 'TABLE_TY_OTHER', 'UNION', 'DO', 'CLOSURE', 'IMPORT_ITEM'))])
case([node('PROGRAM', 0, 1)], [(0, 51, 0, 1, 0, 12), (0, 27, 0, 3, 5, 0), (1, 2, 4, 23, 0, 0), (0, 70, 8, 8, 12, 9)])   # errors; a list cut by the buffer
case([node('PROGRAM', 0, 1)], [(1, 0, 0, 2, 3, 1), (2, 77, 1, 2, 2 ** 32 - 1, 2 ** 32 - 1)], lent_expected=3)   # no such class, a place past the end
case([node('PROGRAM', 0, 1)], [(0, 4, 0, 1, 0, 1)], faults=9, lent_errors=17)  # more errors reported than lent
assert 20 <= len(CASES) <= 32

if __name__ == '__main__':
    with open(os.path.join(HERE, 'stdin'), 'wb') as out:
        for c in CASES:
            head = [c[k] for k in ('reads', 'nodes', 'errors', 'lent_nodes', 'lent_errors', 'lent_expected', 'room')] + [0]
            out.write(struct.pack('<128I', *head, *c['node_words'], *c['error_words']))
    with open(os.path.join(HERE, 'stdout'), 'w') as out:
        out.write(''.join(listing(c) for c in CASES))
