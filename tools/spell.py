#!/usr/bin/env python3
"""spell.py [ROOT]: brings the names of the repository's own definitions and lemmas to snake case, once, after port.py.

A definition, lemma, constructor or field that specs/ or proofs/*.antt declares, or a helper that a proof declares, loses
its capitals and dashes: readInside -> read_inside, read-short -> read_short. Types and modules keep theirs. Where a
lemma with a dash would take the name of a definition, it gets _lem: tag-octets -> tag_octets_lem beside tag_octets.
Clauses in .rt and the texts of must-fail edits follow. It prints what falls together; nothing else is touched.
"""
import collections
import glob
import os
import re
import sys

ROOT = sys.argv[1] if len(sys.argv) > 1 else '.'
NAME = r"[A-Za-z][A-Za-z0-9_']*(?:-[A-Za-z0-9_']+)*"
TOKEN = re.compile(r"(?<![\w'-])" + NAME + r"(?![\w'])")
DECLARED = re.compile(r"^\s*(?:abbrev\s+pub\s+|unfoldable\s+pub\s+|pub\s+|abbrev\s+|unfoldable\s+)?"
                      r"((?:" + NAME + r"\s+)*" + NAME + r")\s*:\s")
WORDS = {'data', 'record', 'module', 'mutual', 'use', 'unfolding', 'where', 'let', 'in', 'as', 'pub', 'open', 'elim'}
MADE = re.compile(r"tie\.|goal\.|statement M|Statement|: *\{M : Type 1\}")


def files(*patterns):
    return sorted(p for q in patterns for p in glob.glob(os.path.join(ROOT, 'crates', '*', q), recursive=True)
                  if '/out/' not in p)


def pages():
    """The pages that name definitions, in backquotes."""
    return [p for p in glob.glob(os.path.join(ROOT, 'docs', '*.md')) + [os.path.join(ROOT, 'README.md')]
            if not os.path.basename(p).startswith('document-')]


def is_law_file(path):
    return '/specs/' in path or os.path.dirname(path).endswith('/proofs')


def declarations():
    """name -> the files that declare it."""
    found = collections.defaultdict(set)
    for path in files('specs/*.antt', 'proofs/**/*.antt'):
        lines = open(path, encoding='utf-8').read().split('\n')
        for number, line in enumerate(lines):
            match = DECLARED.match(line)
            if not match or line.lstrip().startswith(('--', 'use ')) or MADE.search(line):
                continue
            if not is_law_file(path) and (line.startswith(' ') or MADE.search(' '.join(lines[number:number + 2]))):
                continue
            for name in match.group(1).split():
                if name not in WORDS:
                    found[name].add(path)
    return found


def snake(name):
    return re.sub(r"(?<=[a-z0-9'])([A-Z])", lambda m: '_' + m.group(1).lower(), name).replace('-', '_')


# Three words of the port that fall together with definitions.
BY_HAND = {'leftOut': 'left_out_at', 'left_over': 'left_over_lem', 'no_lower': 'no_lower_lem'}


# A file that has the name of a module that Rattle makes, and cycles that port.py names after all their members.
WORDS_MOVED = {
    'oer/specs/Contracts.antt': 'oer/specs/Promises.antt',
    'reading/proofs/value/+read_choice_read_member_read_members_read_row_read_sequence_read_sequence_of':
        'reading/proofs/value/+readers',
    'writing/proofs/value/+write_choice_write_member_write_members_write_row_write_sequence_write_sequence_of':
        'writing/proofs/value/+writers',
}
TEXTS_MOVED = [
    ('Rattle.oer.specs.Contracts', 'Rattle.oer.specs.Promises'),
    ('specs/Contracts.antt', 'specs/Promises.antt'),
    ('pub mod Contracts', 'pub mod Promises'),
    ('read_choice_read_member_read_members_read_row_read_sequence_read_sequence_of', 'readers'),
    ('write_choice_write_member_write_members_write_row_write_sequence_write_sequence_of', 'writers'),
]


def mapping(found):
    """old -> new for each name whose spelling changes; a lemma that falls together with a definition gets _lem."""
    by_new = collections.defaultdict(set)
    for name in found:
        if not name[0].isupper():
            by_new[snake(name)].add(name)
    turned = {}
    for new, names in sorted(by_new.items()):
        dashed = sorted(n for n in names if '-' in n)
        plain = sorted(n for n in names if '-' not in n)
        if len(names) > 1:
            print('fall together:', new, '<-', ' '.join(sorted(names)))
        for name in plain:
            turned[name] = new
        for name in dashed:
            turned[name] = new + '_lem' if plain else new
    for name in found:
        if name[0].isupper() and '-' in name:
            turned[name] = ''.join(w[0].upper() + w[1:] for w in name.split('-'))
    turned.update(BY_HAND)
    return {a: b for a, b in turned.items() if a != b}


def turn(text, turned, dashes):
    """Each token that is a declared name, in its new spelling. Behind a dot a dashed name is one that Rattle makes."""
    def new(match):
        name = match.group(0)
        if name not in turned:
            return name
        if '-' in name and (not dashes or match.start() and text[match.start() - 1] == '.'):
            return name
        return turned[name]
    return TOKEN.sub(new, text)


def main():
    turned = mapping(declarations())
    used = collections.defaultdict(set)
    for path in files('specs/*.antt', 'proofs/**/*.antt'):
        for name in TOKEN.findall(open(path, encoding='utf-8').read()):
            used[name].add(path)
    for old, new in sorted(turned.items()):
        if new in used and not (new in turned.values() and new not in used):
            both = used[new] & used[old]
            if both:
                print('already a word:', old, '->', new, 'in', len(both), 'files,', sorted(both)[0])
    for path in pages():
        text = open(path, encoding='utf-8').read()
        again = re.sub(r"`[^`\n]+`", lambda m: turn(m.group(0), turned, True), text)
        if again != text:
            open(path, 'w', encoding='utf-8').write(again)
    for path in files('specs/*.antt', 'proofs/**/*.antt', 'src/**/*.rt', 'must-fail/*.edit'):
        text = open(path, encoding='utf-8').read()
        dashes = path.endswith('.antt') or 'file: specs/' in text or 'file: proofs/' in text
        again = turn(text, turned, dashes)
        for old, new in TEXTS_MOVED:
            again = again.replace(old, new)
        if again != text:
            open(path, 'w', encoding='utf-8').write(again)
    for old, new in WORDS_MOVED.items():
        if os.path.exists(os.path.join(ROOT, 'crates', old)):
            os.rename(os.path.join(ROOT, 'crates', old), os.path.join(ROOT, 'crates', new))


main()
