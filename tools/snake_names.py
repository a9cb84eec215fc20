#!/usr/bin/env python3
"""Respells the repository's own definitions and lemmas in snake case, once, at the top of a checkout.

Finds the names that specs/ and proofs/ define (functions, lemmas, fields of records), and writes those that have a
hump or a dash in snake case, wherever they stand in the .antt and .rt files of crates/. Goals, which the check names,
and types, which keep their capitals, stay as they are; so do functions of src/, whose names have neither.
Says which names fell together, and then changes nothing.
"""
import pathlib
import re
import sys

# Where the rule alone gives a name that is taken, or keeps a word that the library no longer has.
CHOSEN = {
    'digest-after': 'digest_after_lem',
    'equal-shares': 'equal_shares_lem',
    'getD-zeros': 'get_or_zeros',
    'getD-push-other': 'get_or_push_other',
    'bigSigma0': 'big_sigma0',
    'bigSigma1': 'big_sigma1',
    'smallSigma0': 'small_sigma0',
    'smallSigma1': 'small_sigma1',
}
TOKEN = re.compile(r"[A-Za-z_][A-Za-z0-9_'-]*[A-Za-z0-9_']|[A-Za-z_]")
DEFINED = re.compile(r'(?:(?:abbrev|unfoldable|pub|data|ruleset) )*([a-z][^\s:(){}]*) ?(?:\(.*\) ?)?:(?!\S)')
FIELD = re.compile(r'\s+pub ([a-z][^\s:]*) :(?!\S)')
MEMBER = re.compile(r'\s+ghost ([a-z]\w*): ')


def defined(path):
    """The names that a file defines."""
    pattern = [MEMBER] if path.suffix == '.rt' else [FIELD, DEFINED]
    for line in path.read_text(encoding='utf-8').splitlines():
        if line.startswith(('use ', '--')) or 'goal.' in line:
            continue
        for p in pattern:
            m = p.match(line)
            if m:
                yield m.group(1)
                break


def snake(name):
    if name in CHOSEN:
        return CHOSEN[name]
    name = re.sub(r'(?<=[a-z0-9])(?=[A-Z])', '_', name).replace('-', '_')
    return name.lower()


def main():
    crates = pathlib.Path('crates')
    files = sorted(p for p in crates.rglob('*') if p.suffix in ('.rt', '.antt') and 'out' not in p.parts and 'target' not in p.parts)
    names = {}
    taken = {}
    for p in files:
        for n in defined(p):
            taken.setdefault((p.parts[1], snake(n)), set()).add(n)
            if snake(n) != n:
                names[n] = snake(n)
    together = [f'{crate}: {" ".join(sorted(old))} become {new}' for (crate, new), old in sorted(taken.items()) if len(old) > 1]
    if together:
        print('names fall together:', *together, sep='\n  ')
        return 1
    changed = 0
    for p in files:
        text = p.read_text(encoding='utf-8')
        new = TOKEN.sub(lambda m: names.get(m.group(0), m.group(0)), text)
        if new != text:
            p.write_text(new, encoding='utf-8')
            changed += 1
    for old, new in sorted(names.items()):
        print(f'{old} -> {new}')
    print(f'{len(names)} names, {changed} files')
    return 0


if __name__ == '__main__':
    sys.exit(main())
