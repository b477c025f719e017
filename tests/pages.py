#!/usr/bin/env python3
"""Says whether the pages name what is there.

    tests/pages.py          checks README.md and the pages of docs/ (not the landings' notes)
    tests/pages.py --fix    also writes the line counts of READING's reading order anew

A name in backquotes is to be a word of the sources, comments aside. `CRATE/FILE` is a file of specs/, `CRATE:FILE` one of proofs/, `CRATE::NAME` an
item of the crate's code, `CRATE/label` a must-fail edit. Names before (`CRATE/FILE`) or (`CRATE:FILE`), and names in a table's column whose head ends
so, are to be declared in that file. A statement, `law_name : ..`, is to stand so in the sources; .. in it is a gap. So is every paragraph of a block
that is fenced as antt; line breaks don't count, nor does `pub`. READING.md has to name every must-fail edit once.
Standard library alone.
"""
import glob
import os
import re
import sys

os.chdir(os.path.join(os.path.dirname(os.path.abspath(__file__)), '..'))
PAGES = ['README.md'] + ['docs/%s.md' % p for p in ('ARCHITECTURE', 'CONTRIBUTING', 'READING', 'DECISIONS', 'MANUAL')]
CRATES = {line.split(':')[0].split()[0] for line in open('crates.txt') if ':' in line.split('#')[0]}

# Words of the language, of the kit and of other tools.
FOREIGN = set('''abbrev unfoldable unfolding elim record data where pub mod use now old new get_or set cond eqb leb ltb length take drop map replicate
requires ensures result search rules grind omega arith rw cc simp refl subst sym absurd ruleset depth ghost axioms rt rattle duplicates make cargo
rustc perf static bool break read write wc grep git ldconfig python3'''.split())

WORD = r'[A-Za-z_][\w-]*'
FILE = r'`([a-z_]+)([/:])([A-Z]\w*)`'
EDIT = r'`([a-z_]+)/([a-z0-9_]+)`'


def read(path):
    with open(path, encoding='utf-8') as f:
        return f.read()


def antt(crate, kind, name):
    return 'crates/%s/%s/%s.antt' % (crate, 'specs' if kind == '/' else 'proofs', name)


def declared(path):
    """The names that a file of antt declares: at the line's start, before a colon, an equals sign or `where`."""
    found = set()
    for line in read(path).splitlines():
        line = re.sub(r'^\s*((unfoldable|abbrev|pub|data|record|ruleset|module)\s+)*', '', line)
        head = re.match(r'([^\s(){}:=]+(?: [^\s(){}:=]+)*?)\s*(?:[({].*)?(?::|=|where)', line)
        if head and not line.startswith('--'):
            found.update(head.group(1).split())
    return found


def one_line(text):
    """A text of antt to look up, or to look up in: comments, line breaks and `pub` don't count."""
    return ' %s ' % ' '.join(word for line in text.splitlines() if not line.strip().startswith('--') for word in line.split() if word != 'pub')


def statements():
    """All files of definitions and laws as one line, to look statements up in."""
    return ''.join(one_line(read(p)) for kind in ('specs', 'proofs') for p in sorted(glob.glob('crates/*/%s/*.antt' % kind)))


def edits():
    """READING.md names every must-fail edit once."""
    there = sorted(tuple(re.match(r'crates/(\w+)/must-fail/(\w+)\.edit', p).groups()) for p in glob.glob('crates/*/must-fail/*.edit'))
    named = re.findall(EDIT, read('docs/READING.md'))
    return ['docs/READING.md names the edit %s/%s %d times' % (e + (named.count(e),)) for e in there if named.count(e) != 1]


def uncommented(path):
    """A file without the comments of code, definitions and laws that have lines of their own: what they name need not be there."""
    lines = read(path).splitlines()
    return '\n'.join(x for x in lines if not x.strip().startswith(('--', '//'))) if path.endswith(('.rt', '.antt')) else '\n'.join(lines)


def words():
    """All words of the sources, the files' names included."""
    found = set(CRATES)
    for root in ('crates', 'tests', 'rust', 'include', 'examples'):
        for folder, folders, files in os.walk(root):
            folders[:] = [d for d in folders if d not in ('target', 'out')]
            for name in files:
                found.update(re.findall(WORD, os.path.splitext(name)[0]))
                if name.endswith(('.rt', '.antt', '.edit', '.rs', '.h', '.c', '.sh', '.toml')):
                    found.update(re.findall(WORD, uncommented(os.path.join(folder, name))))
    found.update(re.findall(WORD, read('Makefile') + read('tests/all')))
    # the header's constants, which MANUAL.md names without their prefix
    found.update(['ZAMGYORUD_'] + re.findall(r'\bZAMGYORUD_(\w+)', read('include/zamgyorud.h')))
    return found


class Page:
    def __init__(self, path, known, laws):
        self.path, self.known, self.laws, self.faults = path, known, laws, []
        fenced, column = None, {}
        for number, line in enumerate(read(path).splitlines(), 1):
            if line.startswith('```'):
                self.number = number
                self.quote(fenced)
                fenced = [line] if fenced is None else None
                continue
            if fenced is not None:
                fenced.append(line)
            if fenced is not None or line.startswith('    '):
                continue
            self.number = number
            if line.startswith('|'):
                cells = [c.strip() for c in re.split(r'(?<!\\)\|', line)[1:-1]]
                if not column:
                    column = {i: re.search(r'\(%s\)$' % FILE, c) for i, c in enumerate(cells)}
                    column = {i: m.groups() if m else None for i, m in column.items()}
                for i, cell in enumerate(cells):
                    self.check(cell, column.get(i))
            else:
                column = {}
                self.check(line, None)

    def fault(self, text):
        self.faults.append('%s:%d: %s' % (self.path, self.number, text))

    def quote(self, block):
        """The paragraphs of a block of antt stand so in the sources."""
        if block and block[0] == '```antt':
            for paragraph in '\n'.join(block[1:]).split('\n\n'):
                if one_line(paragraph) not in self.laws:
                    self.fault('nothing stands so above: %s ..' % one_line(paragraph)[:60])

    def check(self, text, default):
        for link in re.findall(r'\]\(([^)#:]+)(?:#[^)]*)?\)', text):
            if not os.path.exists(os.path.join(os.path.dirname(self.path), link)):
                self.fault('no file %s' % link)
        for crate, kind, name in re.findall(FILE, text):
            if crate in CRATES and not os.path.exists(antt(crate, kind, name)):
                self.fault('no file %s' % antt(crate, kind, name))
        for crate, label in re.findall(EDIT, text):
            if crate in CRATES and not os.path.exists('crates/%s/must-fail/%s.edit' % (crate, label)):
                self.fault('no must-fail edit %s/%s' % (crate, label))
        for crate, item in re.findall(r'`([a-z_]+)::(\w+)', text):
            code = ''.join(read(p) for p in glob.glob('crates/%s/src/*.rt' % crate))
            if crate in CRATES and not re.search(r'\b(fn|struct|enum|const) %s\b' % item, code):
                self.fault('no %s in the code of %s' % (item, crate))
        for path in re.findall(r'`((?:docs|tests|examples|rust|include|crates)/[\w./-]+)`', text):
            if not os.path.exists(path):
                self.fault('no file %s' % path)
        for name in re.findall(r'`(%s)`' % WORD, text):
            if name not in self.known and not (name.endswith('_') and any(c.startswith(name) for c in CRATES)):
                self.fault('`%s` is no word of the sources' % name)
        for statement in re.findall(r'`([a-z]\w*_\w+ : [^`]+)`', text):
            if not all(one_line(part) in self.laws for part in statement.split(' .. ')):
                self.fault('no law is stated so: %s' % statement)
        # names that are said to stand in a file
        rest = text
        for run, crate, kind, name in re.findall(r'((?:`[^`]+`(?:, | and | \.\. |: )?)+) ?\(%s' % FILE, text):
            if os.path.exists(antt(crate, kind, name)):
                self.stand(run, antt(crate, kind, name))
            rest = rest.replace(run, '')
        if default and os.path.exists(antt(*default)):
            self.stand(rest, antt(*default))

    def stand(self, text, path):
        names = declared(path)
        for name in re.findall(r'`(%s)`' % WORD, text):
            if name not in names and name not in CRATES:
                self.fault('`%s` is not declared in %s' % (name, path))


def counts(fix):
    """The line counts of READING's reading order: a cell with the files, and after it one with the number of their lines."""
    path, faults, out = 'docs/READING.md', [], []
    for number, line in enumerate(read(path).splitlines(), 1):
        row = re.match(r'(\| \d+ \| (`[^|]*`) \| )(\d+)( \|.*)', line)
        if row:
            files = [antt(*f) for f in re.findall(FILE, row.group(2))]
            lines = sum(len(read(f).splitlines()) for f in files if os.path.exists(f))
            if lines != int(row.group(3)):
                faults.append('%s:%d: %s lines, there are %d' % (path, number, row.group(3), lines))
                line = '%s%d%s' % (row.group(1), lines, row.group(4))
        out.append(line)
    if fix and faults:
        with open(path, 'w', encoding='utf-8') as f:
            f.write('\n'.join(out) + '\n')
        return []
    return faults


def main(arguments):
    if arguments not in ([], ['--fix']):
        sys.exit(__doc__)
    known, laws = words() | FOREIGN, statements()
    faults = counts(arguments == ['--fix']) + edits()
    for path in PAGES:
        faults += Page(path, known, laws).faults
    print('\n'.join(faults) if faults else 'the pages name what is there')
    sys.exit(1 if faults else 0)


main(sys.argv[1:])
