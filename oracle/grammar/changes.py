#!/usr/bin/env python3
"""Changes the specification in one place after the other, and each time the comparison has to notice: changes.py [LIBRARY]

The changed copy is in oracle/target/grammar/specs. The stored sheets are compared up to the first difference. Without LIBRARY nothing is
compared: it is only seen that each change finds its text.
"""
import os
import shutil
import sys

import compare
import reading

COPY = os.path.join(compare.TARGET, 'grammar', 'specs')
# file, what stands in it once, what stands there instead
CHANGES = [
    # conditions dropped: two ways, or one that the library doesn't take
    ('Derives.antt', 'Derives text TyAtom p q → Not kind.VBar q → Derives text Ty p q', 'Derives text TyAtom p q → Derives text Ty p q'),
    ('Derives.antt', 'no-eol : {p : Place} → Not kind.Eol p → ', 'no-eol : {p : Place} → '),
    ('Derives.antt', 'Derives text Ident p q → Here kind.Eol q → Derives text Path p q', 'Derives text Ident p q → Derives text Path p q'),
    ('Derives.antt', 'Free openers p → NoLambda lambda p → ', 'Free openers p → '),
    ('Derives.antt', 'Derives text (Prec 1 true f) p q → Free signs q → ', 'Derives text (Prec 1 true f) p q → '),
    ('Derives.antt', 'Derives text Eols q r → Not kind.CloseBrace r → Derives text (Exprs', 'Derives text Eols q r → Derives text (Exprs'),
    ('Derives.antt', ' → (k ≡ kind.Is → ⊥) → ', ' → '),
    ('Derives.antt', 'level_of (kind_of p) < n → ', ''),
    ('Derives.antt', 'Tok kind.Else p q → Here kind.If q → ', 'Tok kind.Else p q → '),
    # others in their place
    ('Derives.antt', 'Tok kind.Try p q → Derives text (Primary lambda Call) q r', 'Tok kind.Try p q → Derives text (Primary lambda f) q r'),
    ('Derives.antt', 'Derives text (Prec (level_of k + 1) lambda h) q r', 'Derives text (Prec n lambda h) q r'),
    ('Derives.antt', 'Derives text (Rights (suc n)) t u', 'Derives text (Rights m) t u'),
    ('Derives.antt', 'Tok kind.If p q → Derives text (Expr false) q r', 'Tok kind.If p q → Derives text (Expr true) q r'),
    ('Derives.antt', 'Derives text (Posts lambda (member_of f) g) q r', 'Derives text (Posts lambda Other g) q r'),
    ('Derives.antt', ' ∷ kind.RemAssign ∷ []', ' ∷ []'),
    ('Derives.antt', 'Compound kind.SubAssign kind.Sub', 'Compound kind.SubAssign kind.Add'),
    ('Symbols.antt', '  a-member : Assignable NameMember\n', ''),
    # a condition that always holds, since no expression begins with a comma: the clause in Shape.antt takes its parts by their places
    ('Derives.antt', '{p q r s t u : Place} → Derives text (Prec 1 true f) p q → Assignable f → ',
     '{p q r s t u : Place} → Derives text (Prec 1 true f) p q → Not kind.Comma p → '),
    # trees: flags, ranges, words, order
    ('Shape.antt', '(flagged 0 0 true false)', '(flagged 0 0 false true)'),
    ('Shape.antt', '(shape e 0 blank) true false', '(shape e 0 blank) false false'),
    ('Shape.antt', 'blank true true', 'blank true false'),
    ('Shape.antt', 'row_over node.Block (start_of q) r (shape d 0 blank)', 'row_over node.Block (start_of r) r (shape d 0 blank)'),
    ('Shape.antt', 'made node.TypeCheck x r word', 'made node.TypeCheck x q word'),
    ('Shape.antt', 'shape (by.paren-key {p = p} {s = s} a d b c)', 'shape (by.paren-key {p = p} {t = s} a d b c)'),
    ('Shape.antt', 'marked none (span_of p)', 'marked none unmarked'),
    ('Builders.antt', '(flagged i.count 0 (is_ended i.last) (some r.row))', '(flagged i.count 0 (is_ended i.last) false)'),
    ('Builders.antt', '(join lefts.row rights.row)', '(join rights.row lefts.row)'),
    ('Builders.antt', 'word32 (l.flags + 2 ^ 15 * i.count)', 'l.flags'),
    ('Follows.antt', 'end = max from q.prev', 'end = q.prev'),
    ('Words.antt', '    ∷ kind.RawStr\n', ''),
]


def found():
    """Each change finds its text just once in the specification as it stands: a name that has changed is told before any is tried."""
    for file, old, _ in CHANGES:
        with open(os.path.join(compare.SPECS, file), encoding='utf-8') as source:
            times = source.read().count(old)
        assert times == 1, '%s: %d times and not once: %s' % (file, times, old)


def noticed(library, file, old, new):
    """What the comparison says of a copy with this change; None where all sheets come out as before."""
    shutil.rmtree(COPY, ignore_errors=True)
    shutil.copytree(compare.SPECS, COPY)
    path = os.path.join(COPY, file)
    with open(path, encoding='utf-8') as source:
        text = source.read()
    with open(path, 'w', encoding='utf-8') as changed:
        changed.write(text.replace(old, new))
    try:
        compare.run(reading.read(COPY, compare.CRATES), library, [compare.STORED])
    except compare.Difference as difference:
        return str(difference)
    return None


def main():
    """What to exit with: 1 where a change is not noticed."""
    found()
    if len(sys.argv) == 1:
        print('%d changes, each finds its text' % len(CHANGES))
        return 0
    library, missed = compare.Library(sys.argv[1]), 0
    for file, old, new in CHANGES:
        said = noticed(library, file, old, new)
        missed += said is None
        print('%s: %s: %s' % (file, old.strip()[:60], (said or 'NOT NOTICED').replace('\n', ' ')[:120]), flush=True)
    for left in ('difference.bundle', 'difference.txt'):
        if os.path.exists(os.path.join(compare.TARGET, left)):
            os.remove(os.path.join(compare.TARGET, left))
    print('%d changes, %d not noticed' % (len(CHANGES), missed))
    return 1 if missed else 0


if __name__ == '__main__':
    sys.exit(compare.deep(main))
