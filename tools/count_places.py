#!/usr/bin/env python3
"""Counts the places in src/ that docs/DESIGN-PASS.md speaks of, point by point.

usage: python3 tools/count_places.py [--lines] [FOLDER]      (FOLDER: a checkout, else this one)

Twins (point 2): a function or type whose whole text, contract and body, is that of another but for names, types, numbers
and strings. Tests are not looked at for them.
"""
import glob
import os
import re
import sys

lines_wanted = '--lines' in sys.argv
folders = [a for a in sys.argv[1:] if not a.startswith('--')]
root = folders[0] if folders else '.'

files = {}
for path in sorted(glob.glob(os.path.join(root, 'crates', '*', 'src', '*.rt'))):
    name = os.path.relpath(path, os.path.join(root, 'crates')).replace('/src/', '/')
    files[name] = open(path, encoding='utf-8').read().split('\n')


def code(line):
    return '' if line.lstrip().startswith('//') else line


def signatures():
    """Each function's parameters, on one line."""
    for name, lines in files.items():
        text = '\n'.join(code(l) for l in lines)
        for m in re.finditer(r'\bfn (\w+)(<[^(]*>)?\(', text):
            depth, i = 1, m.end()
            while depth and i < len(text):
                depth += {'(': 1, ')': -1}.get(text[i], 0)
                i += 1
            params = re.sub(r'\s+', ' ', text[m.end():i - 1])
            yield name, text[:m.start()].count('\n') + 1, m.group(1), params


def grep(pattern):
    return [(n, i + 1, l.strip()) for n, ls in files.items() for i, l in enumerate(ls) if re.search(pattern, code(l))]


def together(*names):
    return [(n, i, f + '(' + p + ')') for n, i, f, p in signatures() if all(re.search(r'\b%s: ' % x, p) for x in names)]


def show(title, found):
    print('  %3d  %s' % (len(found), title))
    if lines_wanted:
        for n, i, l in found:
            print('         %s:%d  %s' % (n, i, l[:110]))


print('1. Option and Result, flags, numbers')
show('an error in an Option', grep(r'Option<\(?(Fault|Refusal)\b'))
show('enums of our own', grep(r'^\s*(pub(\(crate\))? )?enum '))
show('flags in structs', grep(r'^\s+(pub(\(crate\))? )?[a-z_]+: bool,$'))
show('numbers for refusals and kinds by name', grep(r'Refused\(u8\)|number: u8|^pub const [A-Z0-9_]+: u8'))
show('kinds as a byte in a signature', [(n, i, f + '(' + p + ')') for n, i, f, p in signatures() if re.search(r'\bkind: (Option<)?u8', p)])
show('laws on functions that answer a constant', grep(r'fn \w+(_holds?|_sound|_faithful|_kept|_by_type)\(\) ->'))

print('2. twins')


def shape(text):
    text = re.sub(r'"[^"]*"', 'S', text)
    text = re.sub(r'\b0x[0-9A-Fa-f_]+\b|\b\d[\d_.a-z]*\b', 'N', text)
    text = re.sub(r'\b[A-Za-z_]\w*\b', lambda m: m.group(0) if m.group(0) in KEEP else 'I', text)
    return re.sub(r'\s+', '', text).replace(',)', ')').replace(',}', '}')


KEEP = set('fn let mut match if else for in while loop return pub struct enum impl self use ghost Some None Ok Err as'.split())
shapes = {}
for name, lines in files.items():
    if name.split('/')[0].endswith('tests'):
        continue
    text = '\n'.join(code(l) for l in lines)
    for m in re.finditer(r'\b(fn|struct|enum) \w+', text):
        depth, i = 0, m.start()
        while i < len(text):
            depth += {'{': 1, '}': -1}.get(text[i], 0)
            i += 1
            if depth == 0 and text[i - 1] == '}' and not text[i:].lstrip().startswith(('ensures', 'requires', '{')):
                break
            if depth == 0 and text[i - 1] == ';':
                break
        shapes.setdefault(shape(text[m.start():i]), []).append((name, text[:m.start()].count('\n') + 1, m.group(0)))
groups = [g for w, g in shapes.items() if len(g) > 1 and len(w) > 60]
show('functions and types that are others but for names, types and numbers, counted beside the first', [(n, i, l + '   ~ ' + g[0][0] + ':' + str(g[0][1])) for g in groups for n, i, l in g[1:]])

print('3. loops')
show('while loops', grep(r"^\s*('[a-z]+: )?while "))
show('for over a range of indices', grep(r'for \w+ in \w+\.\.'))
show('counters by hand', grep(r'(\+|-)= |= \w+\.saturating_add\(1\)'))

print('4. equality, order, conversion, printing')
show('impls by hand', grep(r'^impl(<[^>]*>)? (PartialEq|PartialOrd|Ord|Clone|From<.*>|TryFrom<.*>|FromStr|(fmt::)?Display|Smaller) for '))
show('conversions as functions', grep(r'fn (number|is_same_type|as_bool|as_dint|type_name|heading_of|verdict|fits|same|encode|decode|digit|standard|house)\('))

print('5. facts in three contracts, parameters together')
show('a library and the kinds of a chart', together('library', 'kinds'))
show('heap and library', together('heap', 'library'))
show('a tag and the bytes behind it', together('tag', 'bytes'))
show('a buffer and a place in it', together('buffer', 'at'))
show('the sizes of a shape as a bare tuple', grep(r'Option<\(usize, usize, usize\)>'))
show('clause: the library stays', grep(r'ensures library '))
show('clause: kind or pins stay', grep(r'ensures (kind|pins) '))

print('6. buffers and lengths')
show('arrays of a fixed size in code', grep(r'= \[[A-Za-z0-9:_() ]+; \w+\]|: \[\w+; \d+\]|-> \[\w+; \d+\]'))

print('7. which step to run')
show('arms that only call', grep(r'=> (self\.|gates::|arithmetic::|delay::|counter::|conversion::|take_)\w+'))
