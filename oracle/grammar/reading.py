"""Reads the grammar out of the specification as it stands, so that nothing here can say something else than the file that theorems speak of.

A line of it becomes an expression. A name is a str; a number, a Bool or a set of kinds is itself; what is put together is a tuple with its head
first: an application, a constructor with its arguments, the two sides of a sign, a field of a record ('.row', record), or braces ('{}', field ..).
"""
import collections
import os
import re

SIGNS = ('=', ':', '→', '≡', '≤', '<', '+', '*', '^')        # the weakest first
MODULES = ('kind', 'node', 'by', 'literals', 'trees')                   # what stands before a dot and is no record
RELATIONS = {'Assignable': 'Symbols.antt', 'Compound': 'Derives.antt', 'NoLambda': 'Derives.antt'}       # small ones that productions ask for

# premises: pairs of a premise and its place in the text, in an order in which they can be tried
Production = collections.namedtuple('Production', 'name premises conclusion')
# settled: pairs of a production's name for something and the clause's own; parts: the clause's names for the premises
Clause = collections.namedtuple('Clause', 'settled parts body')
# productions: by the symbol's name; relations: their cases by name; shapes: clauses by production; builders: clauses by function; numbers: of kinds
# and records by name; levels: of operators by kind; members: the form of a member by that of its table; types: numbers by word
Grammar = collections.namedtuple('Grammar', 'productions relations shapes builders numbers levels members types word_kinds word_records')


def expression(text):
    """A whole line, or several joined, as an expression."""
    words = re.findall(r'[(){};]|[^\s(){};]+', text)
    found, at = row(words, 0)
    assert at == len(words), 'a bracket too many: ' + text
    return found


def row(words, at):
    """What stands side by side from a place on, up to a closing bracket or a semicolon, and the place of that."""
    items = []
    while at < len(words) and words[at] not in (')', '}', ';'):
        if words[at] == '(':
            item, at = row(words, at + 1)
        elif words[at] == '{':
            item, at = braces(words, at + 1)
        else:
            item = words[at]
        # a field stands right behind its record, a name or a closing bracket
        if isinstance(item, str) and '.' in item and item.split('.')[0] not in MODULES:
            name, *fields = item.split('.')
            item = name or items.pop()
            for field in fields:
                item = ('.' + field, item)
        items.append(item)
        at += 1
    return joined(items), at


def braces(words, at):
    """Fields between semicolons, up to the closing brace."""
    fields = []
    while True:
        field, at = row(words, at)
        fields.append(field)
        if words[at] == '}':
            return ('{}', *fields), at
        at += 1


def joined(items):
    """Signs part what stands beside them; between signs an application is made of what stands side by side."""
    for sign in SIGNS:
        if sign in items:
            at = items.index(sign)
            return sign, joined(items[:at]), joined(items[at + 1:])
    return items[0] if len(items) == 1 else tuple(items)


def resolved(e, constants):
    """With constants in place of their names. The text that Derives is about is the same throughout, so it is left out."""
    if isinstance(e, str):
        return int(e) if e.isdigit() else constants.get(e, e)
    return (e[0], *(resolved(part, constants) for part in e[1:] if part != 'text'))


def names(e):
    """The names in an expression that something has to settle."""
    if isinstance(e, str):
        return {e}
    return set().union(*(names(part) for part in e[1:])) if isinstance(e, tuple) else set()


def lines(folder, file):
    """The lines of a file that say something."""
    with open(os.path.join(folder, file), encoding='utf-8') as source:
        return [line.rstrip('\n') for line in source if line.strip() and not line.strip().startswith('--')]


def entries(given):
    """Each line at the margin with the deeper ones below it."""
    found = []
    for line in given:
        if line.startswith(' '):
            found[-1].append(line)
        else:
            found.append([line])
    return found


def declared(folder, file, name):
    """The constructors of a data type, each as one line."""
    [found] = [entry for entry in entries(lines(folder, file)) if entry[0].startswith('pub data %s ' % name)]
    return [' '.join(entry) for entry in entries(line[2:] for line in found[1:])]


def defined(folder, file, constants):
    """The clauses of all functions of a file, by name: pairs of what a function is given and its body."""
    found = {}
    for entry in entries(lines(folder, file)):
        if re.match(r'(use|pub|abbrev|unfoldable|record|module)\b|\}', entry[0]):
            continue
        _, left, body = resolved(expression(' '.join(entry)), constants)
        name, *given = left if isinstance(left, tuple) else (left,)
        found.setdefault(name, []).append((given, body))
    return found


def productions(folder, file, name, constants):
    """The constructors of a data type, each as what it needs and what it gives."""
    found = []
    for line in declared(folder, file, name):
        _, constructor, rest = resolved(expression(line), constants)
        premises = []
        while rest[0] == '→':
            premises.append(rest[1])
            rest = rest[2]
        # the braces come first: they say which names the constructor has, which shows anyway
        explicit = [premise for premise in premises if premise[0] != '{}' and not isinstance(premise[0], tuple)]
        # known are the symbol and the place where it starts; where it ends comes out
        found.append(Production(constructor, ordered(explicit, names(rest[:3])), rest))
    return found


def needed(premise):
    """What has to be settled before a premise can be tried. A part and a token have to start somewhere, what an equation says of
    its right side follows from the left one, a small relation is tried in all its ways, and any other premise settles nothing itself."""
    if premise[0] in ('Derives', 'Tok'):
        return names(premise[2])
    if premise[0] == '≡':
        return names(premise[1])
    return set() if premise[0] in RELATIONS else names(premise)


def ordered(premises, known):
    """The premises with their places, in an order in which each can be tried: some speak of a token's kind before the token."""
    left, found = list(enumerate(premises)), []
    while left:
        ready = [pair for pair in left if needed(pair[1]) <= known]
        assert ready, 'nothing settles what is asked by %s' % (left,)
        found.append(ready[0])
        left.remove(ready[0])
        known = known | names(ready[0][1])
    return found


def shapes(folder, constants):
    """The clause of each production, which Shape.antt calls `by.` and its name."""
    found = {}
    for (pattern, at, before), body in defined(folder, 'Shape.antt', constants)['shape']:
        assert (at, before) == ('x', 'so'), pattern
        name, *rest = pattern if isinstance(pattern, tuple) else (pattern,)
        settled = [part[1][1:] for part in rest if part[0] == '{}']
        found[name.removeprefix('by.')] = Clause(settled, [part for part in rest if part[0] != '{}'], body)
    return found


def numbers(folder, file):
    """The names of a file that stand for numbers."""
    return {found[1]: int(found[2]) for found in (re.fullmatch(r'(\w+) = (\d+)', line) for line in lines(folder, file)) if found}


def pairs(folder, file, name):
    """A table that is written as a function, such as `precedence_of Add = 4`."""
    return dict(line.split()[1::2] for line in lines(folder, file) if re.fullmatch(name + r' \w+ = \w+', line))


def listed(folder, file, name, pattern):
    """What fits a pattern in a list."""
    [found] = [' '.join(entry) for entry in entries(lines(folder, file)) if re.match(name + ' =', entry[0])]
    return re.findall(pattern, found)


def constants_of(folder, kinds, nodes):
    """The names that stand for one value wherever they occur."""
    found = {'true': True, 'false': False, '⊥': ('⊥',), 'none': ('none',)}
    found.update(('kind.' + name, number) for name, number in kinds.items())
    found.update(('node.' + name, number) for name, number in nodes.items())
    for data in ('Form', 'Sym'):
        for line in declared(folder, 'Symbols.antt', data):
            if '→' not in line:
                found.update((name, (name,)) for name in line.split(' : ')[0].split())
    for name in ('signs', 'openers'):
        found[name] = frozenset(kinds[kind] for kind in listed(folder, 'Derives.antt', name, r'kind\.(\w+)'))
    return found


def read(folder, crates):
    """The grammar of a folder of specifications, with what it takes from those of other crates."""
    kind_specs = os.path.join(crates, 'kinds', 'specs')
    kinds, nodes = numbers(kind_specs, 'Number.antt'), numbers(os.path.join(crates, 'cursor', 'specs'), 'Node.antt')
    constants = constants_of(folder, kinds, nodes)
    by_symbol = {}
    for production in productions(folder, 'Derives.antt', 'Derives', constants):
        by_symbol.setdefault(production.conclusion[1][0], []).append(production)
    beside = r'\("(\w+)", (\w+)\)'
    operators, level = listed(kind_specs, 'Operators.antt', 'binary', beside), pairs(kind_specs, 'Operators.antt', 'precedence_of')
    types, number = listed(kind_specs, 'TypeWords.antt', 'words', beside), pairs(kind_specs, 'TypeWords.antt', 'type_number')
    return Grammar(
        productions=by_symbol,
        relations={name: productions(folder, file, name, constants) for name, file in RELATIONS.items()},
        shapes=shapes(folder, constants),
        builders={**defined(folder, 'Builders.antt', constants), 'program_over': defined(folder, 'Follows.antt', constants)['program_over']},
        numbers={name: constants[name] for name in constants if name.startswith(('kind.', 'node.'))},
        levels={kinds[name]: int(level[operator]) for name, operator in operators},
        members={(form,): (member,) for form, member in pairs(folder, 'Symbols.antt', 'member_of').items()},
        types={word.encode(): int(number[name]) for word, name in types},
        word_kinds={kinds[name] for name in listed(folder, 'Words.antt', 'word_kinds', r'kind\.(\w+)')},
        word_records={nodes[name] for name in listed(folder, 'Words.antt', 'word_records', r'record_of\.(\w+)')})
