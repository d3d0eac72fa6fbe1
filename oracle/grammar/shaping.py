"""The tree of a derivation, by the clauses of Shape.antt and Builders.antt.

Trees in a row are a list of pairs, a record's label and the trees under it. A record of the specification is a dict. A range that may
be missing is None or the range itself.
"""
import operator

LABEL = ('kind', 'start', 'end', 'one', 'two', 'flags')
NO_SPAN = {'start': 0, 'end': 0}


def flagged(first, second, one, two):
    """A flags word (crates/cursor/specs/Records.antt)."""
    return (first + 2 ** 15 * second + 2 ** 30 * one + 2 ** 31 * two) % 2 ** 32


class Shaper:
    """The trees of one sheet."""

    def __init__(self, grammar, sheet):
        self.grammar, self.sheet = grammar, sheet
        # what the clauses take from other crates
        self.functions = {
            '+': operator.add, '*': operator.mul, '^': operator.pow, 'max': max, 'flagged': flagged, 'word32': lambda number: number % 2 ** 32,
            'none': list, 'join': operator.add, 'tree': lambda label, under: [(label, under)],
            'None': lambda: None, 'Some': lambda span: span,
            'is_ended': lambda span: span is not None, 'range_of': lambda span: span or NO_SPAN,
            'span_of': sheet.span, 'start_of': lambda place: sheet.span(place)['start'],
            'function_kind': lambda closure: grammar.numbers['node.Closure' if closure else 'node.Function']}

    def shape(self, derivation, at, before):
        """What a part becomes, by the clause of its production."""
        clause = self.grammar.shapes[derivation.production]
        names = {mine: derivation.settled[its] for its, mine in clause.settled}
        names.update((name, derivation.parts[place]) for place, name in enumerate(clause.parts) if place in derivation.parts)
        return self.value(clause.body, {'x': at, 'so': before, **names})

    def value(self, e, names):
        """What an expression stands for, where the names stand for these."""
        if isinstance(e, str):
            return names[e] if e in names else self.call(e)
        if not isinstance(e, tuple):
            return e
        head, *rest = e
        if head == 'record':
            return {field: self.value(part, names) for _, field, part in rest[0][1:]}
        values = [self.value(part, names) for part in rest]
        if head == '.prev':     # the only field of a place, which is no record here
            return self.sheet.previous_end(*values)
        if head.startswith('.'):
            return values[0][head[1:]]
        return self.shape(*values) if head == 'shape' else self.call(head, *values)

    def call(self, name, *values):
        """A builder by the first of its clauses that fits."""
        if name in self.functions:
            return self.functions[name](*values)
        for patterns, body in self.grammar.builders[name]:
            names = fitted(patterns, values)
            if names is not None:
                return self.value(body, names)
        raise ValueError('no clause of %s fits' % name)

    def program(self, found):
        """The tree of a sheet (specs/Follows.antt): it starts at the first token, trivia too."""
        start = self.sheet.tokens[0][1] if self.sheet.tokens else 0
        return self.call('program_over', start, found.end, self.shape(found.derivation, 0, self.call('blank')))


def fitted(patterns, values):
    """What the names of a clause stand for, None where it is for other values. A pattern is a name, no trees, or a first tree and those
    behind it."""
    names = {}
    for pattern, value in zip(patterns, values):
        if isinstance(pattern, str):
            names[pattern] = value
        elif (pattern == ('none',)) != (value == []):
            return None
        elif value:
            names.update(zip(pattern[1:], (*value[0], value[1:])))
    return names


def walked(trees, level=0):
    """The records as they are met on a walk, each with its level."""
    for label, under in trees:
        yield (level, *(label[field] for field in LABEL))
        yield from walked(under, level + 1)


def words(grammar, trees):
    """The ranges of the words in trees (specs/Words.antt): a type word stands behind the words of what is checked."""
    for label, under in trees:
        if label['kind'] in grammar.word_records:
            yield label['start'], label['end']
        yield from words(grammar, under)
        if label['kind'] == grammar.numbers['node.TypeCheck']:
            yield label['two'], label['end']
