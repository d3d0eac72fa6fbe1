#!/usr/bin/env python3
"""Cuts the cases of crates/type_cases out of the stored answers and writes its stdin and stdout: make.py FOLDER, where FOLDER has the set
`domain`: its bundles, its listings, and as domain.words the same listings with --words. README.md beside it says what is cut, and
what is printed of it.
"""
import collections
import os
import struct
import sys

HERE = os.path.dirname(os.path.abspath(__file__))
CRATE = os.path.join(HERE, '..', '..', 'crates', 'type_cases')
FORMS = ['type', 'atom', 'pattern']
IDENT, RAW_STR, MATCH, ARROW, FAT_ARROW, OPEN_BRACE, CLOSE_BRACE, COLON, ASSIGN, V_BAR, EOL = 4, 8, 12, 37, 38, 52, 53, 59, 60, 63, 69
LITERALS = (5, 6, 7, 8, 9, 32, 33, 34)
DEPTH = 64              # what is left of the depth where a type or pattern begins, if nothing else is said
LIMIT = 65536           # the bytes of all cases, as many as the program reads

Token = collections.namedtuple('Token', 'kind start end')
Node = collections.namedtuple('Node', 'level kind start end detail words kids')
Sheet = collections.namedtuple('Sheet', 'text tokens')
Case = collections.namedtuple('Case', 'form depth sheet answer')
Opening = collections.namedtuple('Opening', 'form at depth stop')


def pieces(path):
    data, at = open(path, 'rb').read(), 0
    while at < len(data):
        size, = struct.unpack_from('<I', data, at)
        yield data[at + 4:at + 4 + size]
        at += 4 + size


def split(bundle):
    size, = struct.unpack_from('<I', bundle)
    count, = struct.unpack_from('<I', bundle, 4 + size)
    return Sheet(bundle[4:4 + size], [Token(*struct.unpack_from('<BII', bundle, 8 + size + 9 * i)) for i in range(count)])


def tree(lines):
    """The root of a listing's nodes."""
    path = []
    for line in lines:
        front, _, words = line.partition(' ;')
        level, kind, start, end, *detail = front.split()
        node = Node(int(level), kind, int(start), int(end), detail, words.split(), [])
        del path[node.level:]
        if path:
            path[-1].kids.append(node)
        path.append(node)
    return path[0]


def reads(token):
    """Trivia are passed, every other token is read."""
    return token.kind >= IDENT


def after(tokens, i):
    """The place of the first token from i on that is no trivia."""
    while i < len(tokens) and not reads(tokens[i]):
        i += 1
    return i


def place(tokens, start):
    return next(i for i, token in enumerate(tokens) if token.start == start)


def parts(form, node):
    """A type or a pattern, and those inside it."""
    yield form, node
    if form == 'pattern':
        inner = [('pattern', kid.kids[1] if kid.kind == 'TablePatternPair' else kid) for kid in node.kids]
    elif node.kind == 'Table':
        inner = [('type', kid) for pair in node.kids for kid in pair.kids[pair.kind == 'TableTyPair':]]
    else:
        inner = [('atom' if node.kind == 'Union' else 'type', kid) for kid in node.kids]
    for form, kid in inner:
        yield from parts(form, kid)


def found(tokens, node):
    """The types and patterns of a tree."""
    for kid in node.kids:
        before = [token for token in tokens if reads(token) and token.end <= kid.start]
        if node.kind == 'TypedIdent' and kid is node.kids[1]:
            yield from parts('type', kid)
        elif node.kind == 'Closure' and kid.kind == 'TypedIdent':
            yield from parts('atom', kid.kids[1])
        elif node.kind in ('Function', 'Closure', 'Effect') and before and before[-1].kind == ARROW:
            yield from parts('type', kid)
        elif node.kind == 'MatchCase' and kid is not node.kids[-1]:
            yield from parts('pattern', kid)
        else:
            yield from found(tokens, kid)


def cut(sheet, first, last):
    """Of a sheet the tokens from first up to and with last, as far as there are any; the text begins with the first one."""
    tokens = sheet.tokens[first:last + 1]
    if not tokens:
        return Sheet(b'', [])
    base = tokens[0].start
    return Sheet(sheet.text[base:tokens[-1].end], [Token(t.kind, t.start - base, t.end - base) for t in tokens])


def lines(node, level, base):
    """The node's lines in the listing, with its own level as 0."""
    yield ' '.join(map(str, [node.level - level, node.kind, node.start - base, node.end - base] + node.detail))
    for kid in node.kids:
        yield from lines(kid, level, base)


def record(node, tokens, base):
    """ONE, TWO and FLAGS of the node's record, as docs/LAYOUT.md has them."""
    names = [word for word in node.words if not word.isdigit()]
    numbers = [int(word) for word in node.words if word.isdigit()]
    one, two = [number - base for number in numbers[1:]] or [0, 0]
    flags = numbers[0] if numbers else int('true' in names)
    flags += 2 ** 30 * ('others' in names or 'variadic' in names) + 2 ** 31 * ('returns' in names)
    if node.kind == 'Int':
        one, two = struct.unpack('<II', struct.pack('<q', int(node.detail[0])))
    if node.kind == 'Str':
        flags = int(tokens[place(tokens, node.start)].kind == RAW_STR)
    return 'words %d %d %d' % (one, two, flags)


def records(node, tokens, base):
    """Those of all its records in the order in which they are appended: children before their parent."""
    for kid in node.kids:
        yield from records(kid, tokens, base)
    yield record(node, tokens, base)


def read(form, sheet, node, depth):
    """The case of a type or pattern that was read. The token behind it is kept."""
    tokens, base = sheet.tokens, node.start
    first = place(tokens, base)
    past = next(i for i, token in enumerate(tokens) if token.end == node.end) + 1
    follows = after(tokens, past)
    shown = list(lines(node, node.level, base))
    head = 'read 0 reads %d nodes %d errors 0' % (sum(map(reads, tokens[first:past])), len(shown))
    return Case(form, depth, cut(sheet, first, follows), [head] + shown + list(records(node, tokens, base)) + ['next %d' % (follows - first)])


def failed(form, sheet, first, error):
    """The case of a type or pattern that begins at token first and ends in the error. The token that was found is the last one."""
    tokens, fields = sheet.tokens, error.split()
    ranged = 3 if fields[1] == 'int' else 2
    start, end = map(int, fields[ranged:ranged + 2])
    base = tokens[first].start if first < len(tokens) else start
    at = place(tokens, start) if start < end else len(tokens)
    head = 'read 0 reads %d nodes 0 errors 1' % sum(map(reads, tokens[first:at]))
    shown = ' '.join(fields[:ranged] + [str(start - base), str(end - base)] + fields[ranged + 2:])
    return Case(form, DEPTH, cut(sheet, first, at), [head, shown, 'next %d' % (at - first)])


def begins(tokens, kinds):
    """The place behind these kinds, trivia aside, where the tokens begin with them."""
    at = 0
    for kind in kinds:
        at = after(tokens, at)
        if at == len(tokens) or tokens[at].kind != kind:
            return None
        at += 1
    return after(tokens, at)


def opening(tokens):
    """The type or pattern of a sheet that begins with `name:` or with `match name {`: its form, its place, what is left of the depth there,
    and the kind that has to stand behind it."""
    for form, depth, stop, kinds in (('type', 63, ASSIGN, [IDENT, COLON]), ('pattern', 62, FAT_ARROW, [MATCH, IDENT, OPEN_BRACE])):
        at = begins(tokens, kinds)
        if at is not None:
            return Opening(form, at, depth, stop)
    return None


def faulty(sheet, opened, error):
    """Where the first error of such a sheet is inside its type or pattern: what has to stand behind was neither read nor expected. Not of the
    pattern alone are the kinds expected at its first token, Eols before it, and what stands behind a bar; a match may have no pattern."""
    case = failed(opened.form, sheet, opened.at, error)
    _, shown, follows = case.answer
    passed = [token.kind for token in case.sheet.tokens[:int(follows.split()[1])]]
    outside = opened.stop in passed or opened.stop in map(int, shown.split()[4:])
    mixed = opened.form == 'pattern' and (not passed or passed[0] in (CLOSE_BRACE, EOL) or V_BAR in passed)
    return [] if outside or mixed else [case]


def nested(form, pair, opens, closes):
    """Not cut from an answer: 64 brackets, which leave no depth for the name inside them."""
    kinds = [opens] * 64 + [IDENT] + [closes] * 64
    sheet = Sheet(pair[:1] * 64 + b'x' + pair[1:] * 64, [Token(kind, i, i + 1) for i, kind in enumerate(kinds)])
    return Case(form, DEPTH, sheet, ['refused 9'])


def cases(number, sheet, stored, told):
    """The cases of one stored answer."""
    opened = opening(sheet.tokens)
    if stored[0] == 'refused 9' and opened:
        # nothing but its type or pattern uses up the depth
        yield Case(opened.form, opened.depth, cut(sheet, opened.at, len(sheet.tokens)), stored)
    if not stored[0].startswith('read'):
        return
    errors = [line for line in stored if line.startswith('error')]
    root = tree(told[1:len(told) - len(errors)])
    if len(sheet.tokens) == 1 and sheet.tokens[0].kind in LITERALS:
        # a literal alone: types and patterns read it as expressions do
        form = FORMS[number % 3]
        yield failed(form, sheet, 0, errors[0]) if errors else read(form, sheet, root.kids[0], DEPTH)
    for form, node in found(sheet.tokens, root):
        here = opened and form == opened.form and node.start == sheet.tokens[opened.at].start
        yield read(form, sheet, node, opened.depth if here else DEPTH)
    if errors and opened:
        yield from faulty(sheet, opened, errors[0])


def all_cases(folder):
    streams = [pieces(os.path.join(folder, 'domain.' + part)) for part in ('bundles', 'listings', 'words')]
    for number, (bundle, listing, worded) in enumerate(zip(*streams)):
        stored, told = listing.decode().splitlines(), worded.decode().splitlines()
        assert stored == [line.partition(' ;')[0] for line in told], 'the words are those of other listings'
        yield from cases(number, split(bundle), stored, told)
    yield nested('type', b'()', 50, 51)
    yield nested('pattern', b'[]', 54, 55)


def packed(case):
    text, tokens = case.sheet
    body = struct.pack('<I', len(text)) + text + struct.pack('<I', len(tokens)) + b''.join(struct.pack('<BII', *token) for token in tokens)
    return struct.pack('<BBI', FORMS.index(case.form), case.depth, len(body)) + body


def chosen(every):
    """The shortest cases that show something new, by form and outcome: a literal, two kinds side by side, a record's flags, or as many levels as depth
    is left."""
    seen = set()
    for case in sorted(every, key=lambda case: len(packed(case))):
        kinds = [None] + [token.kind for token in case.sheet.tokens if reads(token)] + [None]
        flags = [line.split()[3] for line in case.answer if line.startswith('words')]
        levels = max(int(line.split()[0]) for line in case.answer + ['0'] if line[0].isdigit())
        shows = [levels + 1 == case.depth, *flags, *zip(kinds, kinds[1:])] if len(kinds) > 3 else [case.sheet.text]
        new = {(case.form, case.answer[0][-1], what) for what in shows} - seen
        if new:
            seen |= new
            yield case


def outcome(case):
    """Form, and `read` with the number of errors, or `refused` with the refusal's number."""
    words = case.answer[0].split()
    return case.form, words[0], words[-1]


if __name__ == '__main__':
    kept = list(chosen(all_cases(sys.argv[1])))
    stdin = b''.join(map(packed, kept))
    assert len(stdin) <= LIMIT, 'more than the program reads'
    with open(os.path.join(CRATE, 'stdin'), 'wb') as out:
        out.write(stdin)
    with open(os.path.join(CRATE, 'stdout'), 'w') as out:
        out.writelines(line + '\n' for case in kept for line in [case.form] + case.answer)
    for what, count in sorted(collections.Counter(map(outcome, kept)).items()):
        print(*what, count, file=sys.stderr)
