"""Derives a token list by the productions, in every way that they allow.

Nothing is taken from the parser: a symbol at a place is derived by each of its productions, a production by each way to have its premises, and
what comes out is kept, so that every symbol is derived once at each place. A place is the number of the tokens before it, trivia not counted.
"""
import collections
import operator

# what a symbol at a place came out as: the symbol with nothing open, where it ends, and the derivation
Found = collections.namedtuple('Found', 'symbol end derivation')
# production: its name; settled: what its names stand for; parts: the derivations among its premises by their places in the text
Derivation = collections.namedtuple('Derivation', 'production settled parts')
# kind -> (kind of the record, flags), of the literals that are carried by their range
LITERALS = {'Float': ('Float', 0), 'Str': ('Str', 0), 'RawStr': ('Str', 1), 'ByteStr': ('Bytes', 0), 'Null': ('Null', 0), 'True': ('Bool', 1),
            'False': ('Bool', 0)}


class Sheet:
    """The tokens as the grammar sees them (specs/Places.antt)."""

    def __init__(self, text, tokens, numbers):
        self.text, self.tokens = text, tokens
        self.significant = [token for token in tokens if token[0] > numbers['kind.EscapedNewline']]
        self.end_of_input = numbers['kind.Eof']

    def kind(self, place):
        return self.significant[place][0] if place < len(self.significant) else self.end_of_input

    def span(self, place):
        _, start, end = self.significant[place] if place < len(self.significant) else (0, 0, 0)
        return {'start': start, 'end': end}

    def previous_end(self, place):
        return self.significant[place - 1][2] if place else 0

    def after(self, place):
        return min(place + 1, len(self.significant))


def integer(spelling):
    """The 64 bits of an Int, None where it is faulty: underscores are dropped, a prefix may stand before the sign, and i64 is the range."""
    digits = spelling.replace(b'_', b'')
    radix = {b'0x': 16, b'0o': 8, b'0b': 2}.get(digits[:2], 10)
    if radix != 10:
        digits = digits[2:]
    negative = digits[:1] == b'-'
    if digits[:1] in (b'+', b'-'):
        digits = digits[1:]
    allowed = b'0123456789abcdef'[:radix]
    if not digits or any(digit not in allowed for digit in digits.lower()):
        return None
    counted = digits.lstrip(b'0') or b'0'
    if len(counted) > 64:       # too large in any radix; Python refuses to read a number that is very long
        return None
    magnitude = int(counted, radix)
    if magnitude > 2 ** 63 - (not negative):
        return None
    return (-magnitude if negative else magnitude) % 2 ** 64


class Deriver:
    """All derivations of one sheet."""

    def __init__(self, grammar, sheet):
        self.grammar, self.sheet = grammar, sheet
        self.found = {}         # (symbol, place) -> all that it came out as; None while it is being derived
        self.doubled = []       # the symbols and places that came out in two ways
        self.carried = {grammar.numbers['kind.' + kind]: (grammar.numbers['node.' + node], flags) for kind, (node, flags) in LITERALS.items()}
        # what the premises compute with
        self.functions = {
            'suc': lambda number: number + 1, '+': operator.add, 'member_of': grammar.members.get,
            'level_of': lambda kind: grammar.levels.get(kind, 0), 'kind_of': sheet.kind, 'span_of': sheet.span, 'after': sheet.after,
            'literal': self.literal, 'checked_type': self.checked_type}
        # the premises that hold or don't, and settle nothing
        self.conditions = {
            'Here': lambda kind, place: sheet.kind(place) == kind, 'Not': lambda kind, place: sheet.kind(place) != kind,
            'Free': lambda kinds, place: sheet.kind(place) not in kinds, '<': operator.lt, '≤': operator.le}

    def literal(self, kind, span):
        """What a token is as a literal (crates/types/specs/Lits.antt)."""
        one = two = flags = 0
        if kind == self.grammar.numbers['kind.Int']:
            bits = integer(self.sheet.text[span['start']:span['end']])
            if bits is None:
                return ('literals.Faulty',)
            node, one, two = self.grammar.numbers['node.Int'], bits % 2 ** 32, bits >> 32
        elif kind in self.carried:
            node, flags = self.carried[kind]
        else:
            return ('literals.Nothing',)
        return 'literals.Value', {'kind': node, **span, 'one': one, 'two': two, 'flags': flags}

    def checked_type(self, kind, span):
        """The type that a token names after `is` (crates/parts/specs/Steps.antt)."""
        if kind == self.grammar.numbers['kind.Null']:
            return 'Some', 0
        word = self.sheet.text[span['start']:span['end']]
        if kind == self.grammar.numbers['kind.Ident'] and word in self.grammar.types:
            return 'Some', self.grammar.types[word]
        return ('None',)

    def value(self, e, settled):
        """What an expression stands for; None where that is open, and a symbol may have an open part."""
        if isinstance(e, str):
            return settled.get(e)
        if not isinstance(e, tuple):
            return e
        arguments = [self.value(part, settled) for part in e[1:]]
        function = self.functions.get(e[0])
        if function is None:
            return (e[0], *arguments)
        return None if None in arguments else function(*arguments)

    def match(self, pattern, value, settled):
        """What is settled once the pattern stands for the value, None where it can't. An open value asks for nothing."""
        if value is None:
            return settled
        if isinstance(pattern, str) and pattern not in settled:
            return {**settled, pattern: value}
        if isinstance(pattern, tuple) and pattern[0] == 'suc':
            return self.match(pattern[1], value - 1, settled) if value else None
        if isinstance(pattern, tuple) and pattern[0] not in self.functions:
            return self.match_all(pattern[1:], value[1:], settled) if pattern[0] == value[0] else None
        known = self.value(pattern, settled)
        assert known is not None, pattern
        return settled if known == value else None

    def match_all(self, patterns, values, settled):
        """The same for several, of which the later ones are matched with what the earlier ones settle."""
        for pattern, value in zip(patterns, values):
            if settled is not None:
                settled = self.match(pattern, value, settled)
        return settled

    def derive(self, symbol, place):
        """All that a symbol at a place comes out as. An open part of it, such as the form of an expression, comes out too, and that in two
        ways counts as two derivations."""
        key = symbol, place
        if key not in self.found:
            self.found[key], found = None, []
            for production in self.grammar.productions.get(symbol[0], ()):
                _, whole, _, end = production.conclusion
                found += [Found(self.value(whole, settled), settled[end], Derivation(production.name, settled, parts))
                          for settled, parts in self.ways(production, (symbol, place))]
            if len(found) > 1:
                self.doubled.append(key)
            self.found[key] = found
        assert self.found[key] is not None, '%s begins with itself' % (symbol,)
        return self.found[key]

    def ways(self, production, given):
        """The ways to have all premises of a production: what they settle, and the derivations among them."""
        settled = self.match_all(production.conclusion[1:], given, {})
        found = [] if settled is None else [(settled, {})]
        for place, premise in production.premises:
            found = [(later, {**parts, place: part} if part else parts)
                     for settled, parts in found for later, part in self.solve(premise, settled)]
        return found

    def solve(self, premise, settled):
        """The ways to have one premise: what is settled then, and its derivation where it is a part."""
        head, *arguments = premise
        if head == 'Derives':
            return self.solve_part(*arguments, settled)
        if head in self.grammar.relations:
            return self.solve_relation(head, arguments, settled)
        if head == '→':          # something can't be
            return [] if self.solve(arguments[0], settled) else [(settled, None)]
        if head == '≡':
            later = self.match(arguments[1], self.value(arguments[0], settled), settled)
        elif head == 'Tok':
            kind, start, end = arguments
            place = self.value(start, settled)
            later = self.match_all((kind, end), (self.sheet.kind(place), self.sheet.after(place)), settled)
        else:
            values = [self.value(argument, settled) for argument in arguments]
            assert None not in values, premise
            later = settled if self.conditions[head](*values) else None
        return [] if later is None else [(later, None)]

    def solve_part(self, symbol, start, end, settled):
        """A part is derived with what is known of its symbol, and settles the rest of it and where it ends."""
        found = []
        for part in self.derive(self.value(symbol, settled), self.value(start, settled)):
            later = self.match_all((symbol, end), (part.symbol, part.end), settled)
            if later is not None:
                found.append((later, part.derivation))
        return found

    def solve_relation(self, name, arguments, settled):
        """A relation of few cases, none of which says anything for the tree."""
        given, found = [self.value(argument, settled) for argument in arguments], []
        for case in self.grammar.relations[name]:
            for within, _ in self.ways(case, given):
                later = self.match_all(arguments, [self.value(argument, within) for argument in case.conclusion[1:]], settled)
                if later is not None:
                    found.append((later, None))
        return found

    def whole(self):
        """The derivations of the sheet: statements up to the end of input, and nothing left (specs/Follows.antt)."""
        found = self.derive(('Exprs', self.sheet.end_of_input), 0)
        return [part for part in found if part.end == len(self.sheet.significant)]
