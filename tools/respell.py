#!/usr/bin/env python3
"""respell.py: brings the names of this repository's definitions and lemmas to the spelling of today's Rattle.

Run once, at the top of the repository, behind the kit's port.py. A name that specs/ or proofs/ declare, of a definition, a lemma, a constructor or a field, gets
underscores in place of dashes and of inner capitals; types, which begin with a capital, stay. Names of src/, labels of proof goals and texts in quotes stay.
OWN has the names that would otherwise fall together with another one in a file. A name that a file brings from a library stays in that file.
Pages (README, docs/ and others) follow inside their code spans. A second run changes nothing.
"""
import collections, glob, re, sys

# lemmas and fields that would meet a definition of the same spelling: a lemma gets _lem, as std's do
OWN = {
    'row-colour': 'row_colour_lem', 'kept_by': 'kept_by_lem', 'stands_at': 'stands_at_lem', 'last-in': 'last_in_lem', 'new_in': 'new_in_lem',
    'oldest-in': 'oldest_in_lem', 'drawn-at': 'drawn_at_lem', 'source-at': 'source_at_lem', 'of_format': 'of_format_lem', 'by-version': 'by_version_lem',
    'measured-opcode': 'measured_opcode_lem', 'verdict-from': 'verdict_from_lem', 'length-by': 'length_by_lem', 'block_way': 'block_way_lem', 'step-of': 'step_of_lem',
    'left-out': 'left_out_count', 'red-blue': 'red_blue_rises', 'red-green': 'red_green_rises', 'chunkEnd': 'end_of_chunk',
}
SPLIT = re.compile(r'([\s(){}.;,@"«»⟦⟧]+)')
HEAD = r'(?:(?:unfoldable|abbrev|opaque|pub|ruleset|data|record|instance) )*'
NAME = r"[A-Za-z0-9_'₀-₉-]+"
WORDS = {'let', 'in', 'elim', 'where', 'use', 'mod', 'λ'}


def snake(name):
    if not (name[0].islower() or name[0].isdigit()):
        return name
    name = name.replace('-', '_')
    # an opcode, as 0B, stays one word
    name = re.sub(r'(?<=[0-9])([A-Z])(?=_|$)', lambda m: m.group(1).lower(), name)
    name = re.sub(r'(?<=[a-z0-9])([A-Z])(?=[a-z0-9])', lambda m: '_' + m.group(1).lower(), name)
    return re.sub(r'(?<=[a-z0-9])([A-Z]+)$', lambda m: '_' + m.group(1).lower(), name)


def is_comment(line, rust):
    return line.lstrip().startswith('//' if rust else '--')


def declared(files):
    names = set()
    for f in files:
        # the files of a function's proof name goals, not lemmas
        if re.search(r'/proofs/.+/(Proof|Answers|Invariants)\.antt$', f):
            continue
        for line in open(f, encoding='utf-8'):
            if is_comment(line, False):
                continue
            m = re.match(r'^ *' + HEAD + '((?:' + NAME + r' )+)(?:[({].*)?:(?: |$)', line)
            if m and not set(m.group(1).split()) & WORDS:
                names.update(m.group(1).split())
            m = re.match('^' + HEAD + '(' + NAME + ') =', line)
            if m and 'ruleset' in line:
                names.add(m.group(1))
    return names


def from_libraries(text, crates):
    """the names that a file brings from a library that is none of this repository's crates"""
    names = set()
    for m in re.finditer(r'(?m)^(?:ghost )?(?:pub )?use ([^\s{]+)\.\{([^}]*)\}', text):
        path = m.group(1).split('.')
        if not (path[0] == 'Rattle' and len(path) > 1 and path[1] in crates):
            names.update(n.strip().split(' as ')[0] for n in m.group(2).split(','))
    return names


def respelled(word, table, names):
    """what a page or a comment calls word by: also a name that the kit's script had turned in the code"""
    if word in table:
        return table[word]
    return snake(word) if re.search('[a-z0-9][A-Z]|-', word) and snake(word) in names else word


def turned(line, table, rust, names):
    comment = is_comment(line, rust)
    parts = SPLIT.split(line)
    for i in range(0, len(parts), 2):
        w = parts[i]
        if comment or rust:
            span = re.fullmatch(r'([`(]*)(.*?)([`:)]*)', w)
            before, word, after = span.groups()
            quoted = before.startswith('`') or (i >= 2 and parts[i - 1] == '.')
            if comment and (quoted or re.search('[a-z0-9][A-Z]', word)):
                parts[i] = before + respelled(word, table, names) + after
            elif word in table and not comment:
                parts[i] = before + table[word] + after
        elif w == 'left-out' and i and parts[i - 1] == '.':
            # the field of another record, Tally
            parts[i] = 'left_out'
        elif w in table:
            parts[i] = table[w]
    return ''.join(parts)


def main():
    antt = sorted(glob.glob('crates/*/specs/**/*.antt', recursive=True) + glob.glob('crates/*/proofs/**/*.antt', recursive=True))
    names = declared(antt)
    table = {n: snake(n) for n in names if snake(n) != n}
    table.update(OWN)
    all_names = names | set(table.values())
    crates = {f.split('/')[1] for f in antt}
    turns = {o for o, n in OWN.items() if '-' not in o and o == o.lower()}
    for f in antt + sorted(glob.glob('crates/*/src/**/*.rt', recursive=True)):
        rust = f.endswith('.rt')
        text = open(f, encoding='utf-8').read()
        here = table
        if rust or '/specs/' in f:
            here = {o: n for o, n in table.items() if o not in turns}
        else:
            # a lemma that is in snake case already: only in the files that declare or bring it, which do not have the field of that name
            brings = {o for o in turns if re.search(r'(?m)(^ *(?:pub )?' + o + r' :|use Rattle\.\w+\.proofs\.[^\n]*\b' + o + r'\b)', text)}
            here = {o: n for o, n in table.items() if o not in turns or o in brings}
        theirs = from_libraries(text, crates)
        here = {o: n for o, n in here.items() if o not in theirs}
        new = '\n'.join(turned(line, here, rust, all_names) for line in text.split('\n'))
        if new != text:
            open(f, 'w', encoding='utf-8').write(new)
    for f in sorted(glob.glob('*.md') + glob.glob('docs/**/*.md', recursive=True) + glob.glob('host/**/*.md', recursive=True) + glob.glob('command/*.md')):
        text = open(f, encoding='utf-8').read()
        word = lambda w: w.group(0) if w.group(0) in turns else respelled(w.group(0), table, all_names)
        new = re.sub(r'`[^`\n]+`', lambda m: re.sub(r"(?<![\w'-])[a-zA-Z0-9_'-]+(?![\w'-])", word, m.group(0)), text)
        if new != text:
            open(f, 'w', encoding='utf-8').write(new)


if __name__ == '__main__':
    sys.exit(main())
