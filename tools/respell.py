#!/usr/bin/env python3
"""Respells this repository's own definitions and lemmas: words in snake case, types and facts in camel case.

usage: python3 tools/respell.py [--list]        (once, at the top, right after /opt/rattle/port/port.py)

Names of src/ keep their spelling, and so do the names that Rattle makes (goals, steps, invariants, measures).
"""
import glob
import re
import sys

# names whose plain respelling would fall together with another name, or with a tactic
CHOSEN = {
    'first_of': 'first_refusing',
    'contract-of': 'traded_contract',
    'refusal-text': 'refusal_line',
}
# a name that begins so is one that Rattle makes
MADE = re.compile(r'^(invariant|decreases|loop|returns|overflow|bounds|slice-bounds|unreachable|moved|prove|then|else|if|nonzero|index)-|-requires(-\d+)?$|^in-(Ok|Err|None|Some|Done|N|X|[0-9]|default|err|ok|empty)')
DECLARED = re.compile(r'^( {0,4})((?:abbrev |unfoldable |pub |data |record |ruleset )*)([^\s(){}.,;:«»=λ|\[\]]+(?: [^\s(){}.,;:«»=λ|\[\]]+)*) (?:\([^)]*\) |\{[^}]*\} )*:(?:\s|$)')
TOKEN = re.compile(r'[^\s(){}.,;:«»\[\]]+')
WORDS = {'use', 'let', 'in', 'with', 'as', 'elim', 'abbrev', 'pub', 'module', 'record', 'data', '_'}


def files(*patterns):
    return sorted(f for p in patterns for f in glob.glob(p, recursive=True) if '/out/' not in f)


def declared(path):
    """The names that a file declares, but for answers to goals, invariants and measures."""
    for line in open(path, encoding='utf-8'):
        found = DECLARED.match(line)
        if line.lstrip().startswith('--') or not found or re.search(r': goal\.', line):
            continue
        for name in found.group(3).split():
            if name not in WORDS and not MADE.search(name):
                yield name


def respelt(name):
    if name in CHOSEN:
        return CHOSEN[name]
    if name[0].isupper():
        return ''.join(part[:1].upper() + part[1:] for part in name.split('-'))
    name = re.sub(r'(?<=[a-z0-9])([A-Z])', lambda m: '_' + m.group(1).lower(), name)
    return name.replace('-', '_')


def renames(specs):
    names = {n for f in specs for n in declared(f)}
    wanted = {}
    for name in sorted(names):
        plain = re.fullmatch(r"[A-Za-z][A-Za-z0-9'-]*|[a-z_0-9]+", name)
        if plain and respelt(name) != name:
            wanted[name] = respelt(name)
    return names, wanted


def turned_ghost(text, wanted):
    return TOKEN.sub(lambda m: wanted.get(m.group(0), m.group(0)), text)


def turned_source(text, wanted):
    """In a source file what is quoted is the ghost's, and its quotes go where they are not needed; a dash is in no name of the code."""
    def quoted(m):
        name = wanted.get(m.group(1), m.group(1))
        return name if re.fullmatch(r'[a-z]+(_[a-z0-9]+)+|[A-Z][A-Za-z0-9]*', name) else '«%s»' % name
    text = re.sub(r'«([^»]*)»', quoted, text)
    text = re.sub(r"(?<![\w'-])[A-Za-z][A-Za-z0-9']*(?:-[A-Za-z0-9']+)+(?![\w'-])", lambda m: wanted.get(m.group(0), m.group(0)), text)
    # other unquoted names stand in the ghost lines and clauses alone
    ghost = re.compile(r'^(\s*(?:ghost\b|ensures\b|requires\b).*)$', re.M)
    camel = {n: w for n, w in wanted.items() if '-' not in n}
    return ghost.sub(lambda m: re.sub(r"[A-Za-z_][A-Za-z0-9_']*", lambda t: camel.get(t.group(0), t.group(0)), m.group(1)), text)


def main():
    proofs = files('crates/*/specs/**/*.antt', 'crates/*/proofs/**/*.antt')
    names, wanted = renames(proofs)
    fallen = {}
    for name in wanted:
        fallen.setdefault(wanted[name], []).append(name)
    for new, olds in sorted(fallen.items()):
        if len(olds) > 1 or new in names:
            print('falls together: %s <- %s%s' % (new, ', '.join(olds), ' and one of that name' if new in names else ''))
    functions = {}
    for f in files('crates/*/src/**/*.rt'):
        for fn in re.findall(r'\bfn (\w+)', open(f, encoding='utf-8').read()):
            functions.setdefault(fn, f)
    for new in sorted(fallen):
        if new in functions:
            print('is a function too: %s (%s)' % (new, functions[new]))
    if '--list' in sys.argv:
        for name in sorted(wanted):
            print('%s -> %s' % (name, wanted[name]))
        return
    for f in proofs:
        text = open(f, encoding='utf-8').read()
        new = turned_ghost(text, wanted)
        if new != text:
            open(f, 'w', encoding='utf-8').write(new)
    for f in files('crates/*/src/**/*.rt'):
        text = open(f, encoding='utf-8').read()
        new = turned_source(text, wanted)
        if new != text:
            open(f, 'w', encoding='utf-8').write(new)


if __name__ == '__main__':
    main()
