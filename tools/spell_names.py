#!/usr/bin/env python3
"""Gives the repository's own definitions and lemmas today's spelling: words in snake case, types in camel case.

Run once at the top, right after port.py. A name counts as the repository's own if a file of specs/ or proofs/ declares
it and no file imports it from the library. Goals, their labels and the functions of src/ keep their names, and so does
all text outside code (comments keep prose; a name between backquotes is turned there too, and in the pages of docs/).
"""
import glob
import re
import sys

NAME = r"[A-Za-z][A-Za-z0-9_']*(?:-[A-Za-z0-9_']+)+"
TOKEN = re.compile(r"(?<![\w'·◌+-])" + NAME + r"(?![\w'·◌+-])")


def new_name(name):
    parts = name.split('-')
    if name[0].isupper():
        return ''.join(part[:1].upper() + part[1:] for part in parts)
    return '_'.join(parts)


def files(*patterns):
    return sorted(f for p in patterns for f in glob.glob(p, recursive=True))


ANTT = files('crates/*/specs/**/*.antt', 'crates/*/proofs/**/*.antt')
RT = files('crates/*/src/**/*.rt')
PAGES = files('README.md', 'docs/*.md')
KEPT_PAGES = ('docs/PORT.md',)


def code_of(path, text):
    return re.sub(r'--[^\n]*' if path.endswith('.antt') else r'//[^\n]*', '', text)


def is_goals(path):
    return re.search(r'/(Answers|Invariants|Proof)\.antt$', path) is not None


def imported(text):
    """The names that a file takes from the library, and those that the check made for its goals."""
    library, goals = set(), set()
    for path, items in re.findall(r'use ([\w.]+)\.\{([^}]*)\}', text):
        names = {word for item in items.split(',') for word in TOKEN.findall(item.strip())}
        if re.match(r'(Rattle\.(std|core)|borrow|mathlib|lib|native|Prim)\b', path):
            library |= names
        if re.search(r'\.proofs\..+\.(Goals|Given)$', path):
            goals |= names
    return library, goals


def declared(path, text):
    code = code_of(path, text)
    # a signature, a record, a datum, a constructor, a field, a local definition, a bound variable
    names = set()
    for line in code.split('\n'):
        head = re.match(r'\s*(?:(?:abbrev|unfoldable|pub|record|data|let)\s+)*(' + NAME + r')(?=[\s:=])', line)
        if head:
            names.add(head.group(1))
        names |= {m for m in re.findall(r'\blet (' + NAME + r')\b', line)}
        for group in re.findall(r'[({]((?:[\w\'-]+\s+)+):', line):
            names |= set(TOKEN.findall(group))
        for group in re.findall(r'λ ((?:[^.]|\.(?=\S))*?)\. ', line):
            names |= set(TOKEN.findall(group))
        names |= {m for m in re.findall(r'\bas (' + NAME + r')\b', line)}
    return names


def main():
    library, goals, own = set(), set(), set()
    for path in ANTT + RT:
        text = open(path, encoding='utf-8').read()
        lib, made = imported(text)
        library |= lib
        goals |= made
    for path in ANTT:
        text = open(path, encoding='utf-8').read()
        names = declared(path, text)
        if not is_goals(path):
            # the variables of its clauses too
            names |= {m for m in re.findall(r"(?<![\w'·◌+.-])" + NAME, code_of(path, text))}
        else:
            names -= {m for m in re.findall(r'^(?:abbrev )?(?:pub )?(' + NAME + r') : (?:goal|given)\.', text, re.M)}
            names = {n for n in names if not re.search(r'(goal|given)\.' + re.escape(n) + r'(?![\w-])', text)}
        own |= names
    for path in RT:
        own |= set(re.findall(r'\bas (' + NAME + r')\b', open(path, encoding='utf-8').read()))
    own -= library | goals

    def turn(match):
        name = match.group(0)
        return new_name(name) if name in own else name

    def turn_quoted(match):
        return '`' + TOKEN.sub(turn, match.group(1)) + '`'

    left = {}
    for path in ANTT + RT:
        out = []
        for line in open(path, encoding='utf-8').read().split('\n'):
            mark = '--' if path.endswith('.antt') else '//'
            if line.lstrip().startswith(mark):
                code, note = '', line
            elif path.endswith('.rt') and '"' in line:
                code, note = '', line
            else:
                code, sep, rest = line.partition(' ' + mark)
                note = sep + rest
            code = TOKEN.sub(turn, code)
            note = re.sub(r'`([^`]*)`', turn_quoted, note)
            for name in TOKEN.findall(code):
                if name not in library:
                    left.setdefault(name, set()).add(path)
            out.append(code + note)
        open(path, 'w', encoding='utf-8').write('\n'.join(out))
    for path in PAGES:
        if path not in KEPT_PAGES:
            text = open(path, encoding='utf-8').read()
            open(path, 'w', encoding='utf-8').write(re.sub(r'`([^`\n]*)`', turn_quoted, text))
    print(len(own), 'names of the repository')
    for name in sorted(left):
        print('kept:', name, *sorted(left[name])[:2])


if __name__ == '__main__':
    sys.exit(main())
