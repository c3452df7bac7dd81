#!/usr/bin/env python3
"""Shows what must be believed, and that it stands apart: python3 tests/believed.py

In each crate of the product, specs/Definitions holds what public promises and theorems are made of, specs/Theorems the
demands' statements, specs/Checks statements that pin the definitions from a second side, on which nothing rests, and
specs/Inner the words of contracts that only the crate itself can meet. What must be believed are the first two.
Checked are: that every file of specs/ is in one of these; that Definitions and Theorems use nothing of the others, and
Checks nothing of Inner and no law of proofs/; that no promise of a public function does, nor what a public type says by its
ghost fields or invariant, nor a law of a trait that it has; that every definition is reached from a promise or a theorem;
that every statement is proved; and that the list in docs/CLAIMS.md has every file with its number of lines, README.md and
docs/REGULATOR.md the same files in the same order, and all three their sum. Lines of definitions are counted: no imports,
comments or blank lines.
Ends with one line 'N passed, M failed'; the exit status is 1 if M is not 0.
"""
import pathlib
import re
import sys

ROOT = pathlib.Path(__file__).resolve().parent.parent
BELIEVED = ('Definitions', 'Theorems')
STATED = ('Theorems', 'Checks')
USE = re.compile(r'(?m)^\s*(?:ghost |pub )?use Rattle\.(\w+)\.((?:specs|proofs)(?:\.[\w-]+)*)(?:\.\{([^}]*)\})?')
counts = {'passed': 0, 'failed': 0}


def check(holds, what):
    counts['passed' if holds else 'failed'] += 1
    if not holds:
        print('FAILED:', what)


def text_of(path):
    return path.read_text(encoding='utf-8')


def product():
    """The crates of the product: those of crates.txt that are no tests."""
    lines = text_of(ROOT / 'crates.txt').split('\n')
    names = [re.split('[: ]', line)[0] for line in lines if line.strip() and not line.startswith('#')]
    return [name for name in names if not name.startswith('test_')]


def spec_files(crate):
    """The files of specs/ that are not just a list of modules. Laws that stand below a shut definition are proofs."""
    found = (ROOT / 'crates' / crate / 'specs').rglob('*.antt')
    return sorted(p for p in found if p.name != 'Law.antt' and re.search(r'(?m)^(?!pub mod |use |--|\s*$)', text_of(p)))


def room(path):
    return path.relative_to(ROOT).parts[3]


def imports(text):
    """What a file uses of specs/ and proofs/ of this repository's crates: the crate, the module's path in it, and the names."""
    for found in USE.finditer(text):
        crate, parts = found.group(1), found.group(2).split('.')
        names = [name.split(' as ')[-1].strip() for name in (found.group(3) or '').split(',')]
        if (ROOT / 'crates' / crate).exists():
            yield crate, parts, names


def file_of(crate, parts):
    return ROOT / 'crates' / crate / 'specs' / ('/'.join(parts[1:]) + '.antt')


def apart(parts, folders=('Inner', 'Checks')):
    """A law, or a word of a folder that promises and theorems do without."""
    return parts[0] == 'proofs' or parts[1] in folders


TYPE = re.compile(r'(?m)^pub (?:struct|enum) (\w+)(.*?)(?:^\}|;$)', re.S)
FUNCTION = re.compile(r'(?m)^pub (?:extern "C" )?fn (\w+)(.*?)(?:^\{$|[^\n]\{$)', re.S)
METHODS = re.compile(r'(?m)^impl(?:<[^{]*?>)? (\w+)(?:<[^{]*?>)?\s*\{(.*?)^\}', re.S)
METHOD = re.compile(r'(?m)^    pub fn (\w+)(.*?)(?:^    \{$|[^\n ]\s*\{$)', re.S)
TRAIT = re.compile(r'(?m)^impl(?:<[^{]*?>)? ([^{]*? for [^{]*?)\s*\{(.*?)^\}', re.S)


def facts(declaration):
    """What a type, or a trait that a type has, says by ghost fields and laws: all but what is brought in, and but its functions."""
    said = re.sub(r'(?ms)^    (?:pub )?fn .*?^    \}', '', re.sub(r'\bghost use [^;]*;', '', declaration))
    return said if re.search(r'\bghost (?!Value\b|view\b|inverse\b)\w+\s*[:=]', said) else ''


def promises(crate):
    """The contracts of the functions and methods that another crate can call, what the types say that it can name, and the laws of the
    traits that these have, each with its file's text."""
    source = ROOT / 'crates' / crate / 'src'
    if not (source / 'lib.rt').exists():
        return
    root = text_of(source / 'lib.rt')
    passed_on = {name for names in re.findall(r'pub use \w+::\{?([\w, ]+)\}?;', root) for name in names.split(', ')}
    opened = set(re.findall(r'(?m)^pub mod (\w+);', root))
    texts = [(path, re.sub(r'//[^\n]*', '', text_of(path))) for path in sorted(source.rglob('*.rt'))]

    def seen(path, name):
        return path.name == 'lib.rt' or path.stem in opened or name in passed_on

    types = [(found, text) for path, text in texts for found in TYPE.finditer(text) if seen(path, found.group(1))]
    named = {found.group(1) for found, _ in types}
    yield from ((found.group(1), facts(found.group(2)), text) for found, text in types if facts(found.group(2)))
    for path, text in texts:
        for found in FUNCTION.finditer(text):
            if seen(path, found.group(1)):
                yield found.group(1), found.group(2), text
        for block in METHODS.finditer(text):
            if seen(path, block.group(1)):
                for found in METHOD.finditer(block.group(2)):
                    yield '%s::%s' % (block.group(1), found.group(1)), found.group(2), text
        for block in TRAIT.finditer(text):
            if named & set(re.findall(r'\w+', block.group(1))):
                yield block.group(1), facts(block.group(2)), text


def closure(start):
    reached, left = set(), list(start)
    while left:
        path = left.pop()
        if path in reached or not path.exists():
            continue
        reached.add(path)
        left += [file_of(crate, parts) for crate, parts, _ in imports(text_of(path)) if parts[0] == 'specs']
    return reached


def check_promises(crates):
    """No promise uses a word that stands apart; answers the files that promises use."""
    used, counted, said = [], 0, set()
    for crate in crates:
        for name, contract, text in promises(crate):
            counted += 1
            said |= set(re.findall(r'\w+', name)) if 'ghost' in contract else set()
            for other, parts, names in imports(text):
                named = [n for n in names if re.search(r'(?<![\w-])%s(?![\w-])' % re.escape(n), contract)]
                if named and apart(parts):
                    check(False, '%s::%s promises in words that stand apart: %s' % (crate, name, ', '.join(named)))
                elif named:
                    used.append(file_of(other, parts))
            check('ensures' in contract or 'ghost' in contract, '%s::%s promises nothing' % (crate, name))
    for name in re.findall(r'(?m)^    \w+::(\w+)::new.* by their type', text_of(ROOT / 'README.md')):
        check(name in said, '%s says nothing by its type' % name)
    print('%d promises of public functions, types and traits' % counted)
    return used


def check_theorems(crates):
    """Every statement that no other statement of its file is made of is what some law of proofs/ says."""
    for crate in crates:
        laws = '\n'.join(text_of(p) for p in (ROOT / 'crates' / crate / 'proofs').rglob('*.antt'))
        for path in (p for p in spec_files(crate) if room(p) in STATED):
            text = re.sub(r'--[^\n]*', '', text_of(path))
            names = re.findall(r'(?m)^(?:abbrev |unfoldable )?pub (?:record )?([A-Z]\w*)', text)
            for name in names:
                if len(re.findall(r'\b%s\b' % name, text)) <= (2 if 'pub record ' + name not in text else 1):
                    said = re.search(r'(?m)^\s*pub [\w-]+ : [^\n]*\b%s\b' % name, laws)
                    check(said, '%s: nothing in proofs/ says %s' % (path.relative_to(ROOT), name))


def lines_of(path):
    lines = [line.strip() for line in text_of(path).split('\n')]
    counted = [line for line in lines if line and not line.startswith(('use ', 'pub mod '))]
    return len([line for line in counted if not line.startswith('--')]), len(counted)


def check_summary(name, order):
    """A row of a short list: crates with their files, `crate: File, File; crate: File`, and the sum of their lines."""
    found = []
    for files, lines in re.findall(r'(?m)^ *\|[^|]*\| (\w+: \w[^|]*) \| (\d+) \|$', text_of(ROOT / name)):
        row = [(crate, file) for part in files.split('; ') for crate, _, names in [part.partition(': ')] for file in names.split(', ')]
        paths = [file_of(crate, ['specs', folder, file]) for crate, file in row for folder in BELIEVED]
        paths = [path for path in paths if path.exists()]
        check(sum(lines_of(path)[0] for path in paths) == int(lines), '%s: %s' % (name, files))
        found += [str(path.relative_to(ROOT / 'crates')) for path in paths]
    check(found == order, '%s has not the files of docs/CLAIMS.md in their order' % name)


def check_documents(believed):
    """docs/CLAIMS.md lists each file with its lines; the three documents have the sum."""
    claims = text_of(ROOT / 'docs' / 'CLAIMS.md')
    sums = [sum(lines_of(path)[i] for path in believed) for i in (0, 1)]
    rows = re.findall(r'(?m)^\| `(\S+/specs/\S+\.antt)` \|.*\| (\d+) \|$', claims)
    listed = {name: int(lines) for name, lines in rows}
    check(len(listed) == len(rows), 'a file stands twice in the list of docs/CLAIMS.md')
    for path in believed:
        name = str(path.relative_to(ROOT / 'crates'))
        check(listed.pop(name, None) == lines_of(path)[0], 'docs/CLAIMS.md: %s has %d lines' % (name, lines_of(path)[0]))
    check(not listed, 'docs/CLAIMS.md lists what is not there: %s' % ', '.join(listed))
    for name in ('README.md', 'docs/REGULATOR.md'):
        check_summary(name, [name for name, _ in rows])
    said = '%d lines of definitions' % sums[0]
    for name in ('README.md', 'docs/REGULATOR.md', 'docs/CLAIMS.md'):
        check(said in ' '.join(text_of(ROOT / name).split()), '%s does not say "%s"' % (name, said))
    print('%d files, %s, %d with their comments' % (len(believed), said, sums[1]))


def main():
    crates = product()
    files = [path for crate in crates for path in spec_files(crate)]
    for path in files:
        check(room(path) in BELIEVED + ('Checks', 'Inner'), '%s is in no folder that says what it is' % path.relative_to(ROOT))
    believed = [path for path in files if room(path) in BELIEVED]
    for path in (path for path in files if room(path) != 'Inner'):
        folders = ('Inner',) if room(path) == 'Checks' else ('Inner', 'Checks')
        words = [n for _, parts, names in imports(text_of(path)) if apart(parts, folders) for n in names]
        check(not words, '%s uses words that stand apart: %s' % (path.relative_to(ROOT), ', '.join(words)))
    reached = closure(check_promises(crates) + [path for path in believed if room(path) == 'Theorems'])
    for path in believed:
        check(path in reached, 'no promise and no theorem reaches %s' % path.relative_to(ROOT))
    check_theorems(crates)
    check_documents(believed)
    print('%(passed)d passed, %(failed)d failed' % counts)
    sys.exit(counts['failed'] != 0)


main()
