#!/usr/bin/env python3
"""Brings the repository's own definitions and lemmas to the library's spelling: words in snake case; a dash only
between two names, as in `length-build`; fields and constructors without a dash.

usage: python3 tools/respell.py      (at the top of the repository, once, straight after port.py)

It goes by the names that specs/ and proofs/ declare, and leaves comments, strings, Rust code, file names, inputs and
outputs alone. In pages it respells what stands between backticks. It prints what falls together, and then writes nothing.
"""
import glob
import re
import sys

DECLARED = re.compile(r'^(\s*)(?:abbrev |unfoldable )?(?:pub )?(?:abbrev |unfoldable )?([^\s:(){}\[\],.;"λ]+) : ')
TYPE = re.compile(r'^\s*(?:pub )?(?:record|data) (\S+)')
TOKEN = re.compile(r'[^\s(){}\[\],.;"`]+')
# words of the library that stand in names of lemmas
LIBRARY = {'length', 'take', 'drop', 'set', 'sets', 'map', 'append', 'replicate', 'get_or', 'build', 'min', 'all'}
# where the plain rule gives a name that is taken
SPECIAL = {
    'first_some': 'first_some_lem',
    'in_bytes': 'within_bytes',
    'kind-known': 'kind_known_lem',
    'latched-into': 'latched_into_lem',
    'next-step': 'one_step_on',
    'one_more': 'one_more_lem',
    'output-untouched': 'output_untouched_lem',
    'pins-of': 'pins_of_lem',
    'present-below': 'present_below_lem',
    'refusalBy': 'refusal_in',
    'same_step': 'same_step_lem',
    'search-made': 'search_made_lem',
    'site-touched': 'site_touched_lem',
    'slices-fit': 'slices_fit_lem',
}


def sources():
    return sorted(glob.glob('crates/*/specs/**/*.antt', recursive=True) + glob.glob('crates/*/proofs/**/*.antt', recursive=True))


def law_files():
    return [f for f in sources() if not f.endswith(('/Proof.antt', '/Invariants.antt', '/Answers.antt'))]


def snake(word):
    """camelCase to snake_case; capitals at the start of a name stay, as those of a type or a fact."""
    if not word or not word[0].islower():
        return word
    word = word.replace('getD', 'get_or').replace('vec-len', 'vec_len')
    word = re.sub(r'(?<=[a-z0-9₀-₉])([A-Z]+)$', lambda m: '_' + m.group(1).lower(), word)
    return re.sub(r'(?<=[a-z0-9₀-₉])([A-Z])', lambda m: '_' + m.group(1).lower(), word)


def collect():
    names, parts, types = {}, set(), set()
    for path in law_files():
        inside = False
        for line in open(path, encoding='utf8'):
            if line.lstrip().startswith('--'):
                continue
            kind = TYPE.match(line)
            if kind:
                types.add(kind.group(1))
                inside = True
                continue
            if line.strip() and not line.startswith(' '):
                inside = False
            found = DECLARED.match(line)
            if found:
                name = found.group(2)
                member = inside and line.startswith(' ')
                names.setdefault(name, set()).add('member' if member else 'name')
                if member:
                    parts.add(name)
    return names, parts, types


def joined(name, whole, member):
    """The parts of a name with dashes: a dash stays between two names, and is `_` elsewhere."""
    pieces = [snake(p) for p in name.split('-')]
    out = pieces[0]
    for piece in pieces[1:]:
        left = re.split('-', out)[-1]
        keep = not member and (left in whole) and (piece in whole)
        out += ('-' if keep else '_') + piece
    return out


def respelled():
    names, members, types = collect()
    whole = {snake(n) for n in names if '-' not in n} | LIBRARY
    table = {}
    for name in sorted(names):
        if name in types or not name[0].islower():
            continue
        new = SPECIAL.get(name, joined(name, whole, names[name] == {'member'}))
        if new != name:
            table[name] = new
    taken = {}
    for name in names:
        taken.setdefault(table.get(name, name), []).append(name)
    clash = {new: old for new, old in taken.items() if len(old) > 1}
    return table, clash


def by_table(table, text):
    return TOKEN.sub(lambda m: table.get(m.group(0), m.group(0)), text)


def without_comment(line, mark, table):
    place = line.find(mark)
    if place < 0:
        return by_table(table, line)
    return by_table(table, line[:place]) + line[place:]


def ghost_lines(text, table):
    """In a Rust source only the ghost imports and the clauses of contracts."""
    out = []
    depth = 0
    for line in text.split('\n'):
        bare = line.strip()
        if depth == 0 and re.match(r'(ghost use|requires|ensures)\b', bare):
            out.append(by_table(table, line))
            depth = line.count('{') - line.count('}')
        elif depth > 0:
            out.append(by_table(table, line))
            depth += line.count('{') - line.count('}')
        else:
            out.append(line)
    return '\n'.join(out)


def page(text, table):
    return re.sub(r'`[^`\n]+`', lambda m: m.group(0) if ' ' in m.group(0) and m.group(0).count('/') else by_table(table, m.group(0)), text)


def main():
    table, clash = respelled()
    if clash:
        for new, old in sorted(clash.items()):
            print('falls together:', new, 'of', ', '.join(sorted(old)))
        return 1
    if '--list' in sys.argv:
        for old, new in sorted(table.items()):
            print(old, new)
        return 0
    changed = 0
    for path in sources():
        text = open(path, encoding='utf8').read()
        new = '\n'.join(without_comment(line, '-- ', table) if not line.lstrip().startswith('--') else line for line in text.split('\n'))
        changed += new != text
        open(path, 'w', encoding='utf8').write(new)
    for path in sorted(glob.glob('crates/*/src/**/*.rt', recursive=True)):
        text = open(path, encoding='utf8').read()
        new = ghost_lines(text, table)
        changed += new != text
        open(path, 'w', encoding='utf8').write(new)
    for path in sorted(glob.glob('docs/*.md')) + ['README.md']:
        text = open(path, encoding='utf8').read()
        new = page(text, table)
        changed += new != text
        open(path, 'w', encoding='utf8').write(new)
    print(len(table), 'names respelled in', changed, 'files')
    return 0


if __name__ == '__main__':
    sys.exit(main())
