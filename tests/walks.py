#!/usr/bin/env python3
"""Follows every walk of docs/CLAIMS.md from a rule to its proof: python3 tests/walks.py

In its tables every file, folder and must-fail edit that is named must be there, and every name in `..` must stand in
some file of crates/. A table's heading says where its files are, as in 'Proof (pyramid/proofs/)'.
Ends with one line 'N passed, M failed'; the exit status is 1 if M is not 0.
"""
import pathlib
import re
import sys

ROOT = pathlib.Path(__file__).resolve().parent.parent
CRATES = ROOT / 'crates'
EDITS = {path.stem for path in CRATES.glob('*/must-fail/*.edit')}
counts = {'passed': 0, 'failed': 0}


def check(holds, what):
    counts['passed' if holds else 'failed'] += 1
    if not holds:
        print('FAILED:', what)


def words_of_crates():
    found = set()
    for path in CRATES.glob('*/*/**/*'):
        written = path.relative_to(CRATES).parts[1] in ('src', 'specs', 'proofs')
        if written and path.suffix in ('.antt', '.rt') and path.is_file():
            found.update(re.findall(r"[\w'₀-₉-]+", path.read_text(encoding='utf-8')))
    return found


def tables(text):
    """The rows of each table, each with the heading of its columns."""
    heading = None
    for line in text.split('\n'):
        if not line.startswith('|'):
            heading = None
        elif heading is None:
            heading = line
        elif not line.startswith('|---'):
            yield [cell.strip() for cell in heading.strip('|').split('|')], [cell.strip() for cell in line.strip('|').split('|')]


def stands(place, base):
    """A file or folder, below its table's folder, a crate's src or proofs, or crates/."""
    crate = base.split('/')[0]
    tried = [base, '', crate, crate + '/src', crate + '/proofs', crate + '/specs']
    return any((CRATES / start / place).exists() or (CRATES / start / place / 'Proof.antt').exists() for start in tried)


def follow(heading, cell, row, words):
    base = (re.findall(r'\((\w+/[\w/]*)\)', heading) or [''])[0]
    for place in re.findall(r'(?<![\w/`])[\w/+*]+\.(?:antt|rt)\b', cell):
        check(stands(place, base), '%s: no file %s' % (row, place))
    for place in re.findall(r'(?<![\w/`])[\w/]+/(?![\w.])', cell):
        check(stands(place, base), '%s: no folder %s' % (row, place))
    if heading.startswith('Proof'):
        for place in re.findall(r'(?:^|, |; )([\w/]+)(?=,|;|$)', cell):
            check(place == 'below' or stands(place, base), '%s: no proof %s' % (row, place))
    if heading.startswith(('Can fail', 'Wrong bodies', 'Edit')):
        for edit in re.findall(r'(?<![\w`])[a-z0-9]+(?:_[a-z0-9]+)+(?![\w`])', cell.split('tried')[0]):
            check(edit in EDITS, '%s: no edit %s' % (row, edit))
    for name in re.findall(r"`([A-Za-z_][\w':-]*)`", cell):
        check(name.split('::')[-1] in words, '%s: no %s in crates/' % (row, name))


def main():
    words = words_of_crates()
    rows = 0
    for heading, cells in tables((ROOT / 'docs' / 'CLAIMS.md').read_text(encoding='utf-8')):
        rows += 1
        for title, cell in zip(heading, cells):
            follow(title, cell, cells[0][:50], words)
    text = (ROOT / 'docs' / 'CLAIMS.md').read_text(encoding='utf-8')
    for edit in sorted(EDITS):
        check(re.search(r'(?m)^\| %s \|' % edit, text), 'the table of first errors lacks %s' % edit)
    print('%d rows' % rows)
    print('%(passed)d passed, %(failed)d failed' % counts)
    sys.exit(counts['failed'] != 0)


main()
