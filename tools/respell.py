#!/usr/bin/env python3
"""respell: the repository's own antt names in today's spelling, run once after port.py.

    tools/respell.py [--check]   at the root of the repository; --check writes nothing and prints each name, old and new

A definition or lemma that is declared in specs/ or proofs/ as `likeThis` becomes `like_this`, in a name of parts joined by dashes
in each part, and a constant as LIKE-THIS becomes LIKE_THIS. A dash goes on joining names, as in the grammar's constructors. Types, facts
and the constants that are named after an enum's variants keep their capital. A lemma that has the name which a definition gets takes
`_lem`. It goes by whole words, in .antt, .rt outside strings, .weave and .edit files, README and docs/.
Names that fall together are refused.
"""
import glob
import re
import sys

WORD = r"[^\s(){}\[\],;.`\"|=λ∷≡→∙@%!$<>?:*#/&“”…~^\\]+"
DECLARED = re.compile(r"^\s*(?:(?:unfoldable|abbrev|pub|data|record|macro) )*(%s)(?:\s*[({][^)}]*[)}])*\s*:\s" % WORD)
# Names that are bound in an argument list.
BOUND = """assignRule tableRule plainRule unionOf textRoom propertyRule plainStmt keepsLast callRule typedRule triedRule negatedRule wordRoom tokenRoom
multiRule""".split()
CAMEL = re.compile(r"(?<=[a-z0-9])(?=[A-Z])")


def snake(part):
    return CAMEL.sub('_', part).lower() if part[:1].islower() and CAMEL.search(part) else part


def new_name(name):
    return name.replace('-', '_') if name.isupper() else '-'.join(snake(p) for p in name.split('-'))


def declared():
    """{name: whether specs/ declares it}"""
    found = {}
    for file in glob.glob('crates/*/specs/**/*.antt', recursive=True) + glob.glob('crates/*/proofs/**/*.antt', recursive=True):
        for line in open(file, encoding='utf8'):
            m = DECLARED.match(line)
            if m and not line.lstrip().startswith('--'):
                found[m.group(1)] = found.get(m.group(1), False) or '/specs/' in file
    return found


def outside_strings(text, turn):
    parts = re.split(r'("(?:[^"\\\n]|\\.)*")', text)
    return ''.join(p if k % 2 else turn(p) for k, p in enumerate(parts))


def main(words):
    names = declared()
    renamed = {a: new_name(a) for a in [*names, *BOUND] if a != new_name(a)}
    renamed.update({b: b + '_lem' for b in set(renamed.values()) if b in names and not names[b]})
    taken = [(a, b) for a, b in renamed.items() if b in names and b not in renamed or list(renamed.values()).count(b) > 1]
    for a, b in taken:
        print('respell: %s and %s fall together' % (a, b), file=sys.stderr)
    if '--check' in words:
        for a, b in sorted(renamed.items()):
            print(a, b)
    if taken:
        return 1
    word = re.compile(WORD)

    def turn(text):
        return word.sub(lambda m: renamed.get(m.group(0), m.group(0)), text)

    def turn_page(text):
        return re.sub(r'`[^`\n]+`', lambda m: turn(m.group(0)), text)

    files = {f: turn for kind in ('antt', 'weave') for f in glob.glob('crates/**/*.' + kind, recursive=True)}
    files.update({f: (lambda t: outside_strings(t, turn)) for kind in ('rt', 'edit') for f in glob.glob('crates/**/*.' + kind, recursive=True)})
    files.update({f: turn_page for f in glob.glob('docs/*.md') + ['README.md']})
    changed = 0
    for file, how in sorted(files.items()):
        if '/out/' in file:
            continue
        old = open(file, encoding='utf8').read()
        text = how(old)
        if text != old:
            changed += 1
            if '--check' not in words:
                open(file, 'w', encoding='utf8').write(text)
    print('respell: %d names, %d files' % (len(renamed), changed))
    return 0


if __name__ == '__main__':
    sys.exit(main(sys.argv[1:]))
