#!/usr/bin/env python3
"""Lists the places that a design pass looks at, point by point, in the code under crates/*/src (tests left out).

    python3 tools/places.py            counts
    python3 tools/places.py NUMBER     the places of one point, a line each
"""
import collections
import glob
import re
import sys


def source():
    """File, line number, line; test crates, test modules and comments left out."""
    for path in sorted(glob.glob('crates/*/src/**/*.rt', recursive=True)):
        if '_cases/' in path and not path.startswith('crates/agreement_cases'):
            continue
        for number, line in enumerate(open(path, encoding='utf-8'), 1):
            if line.strip() == '#[cfg(test)]':
                break
            if not line.strip().startswith('//'):
                yield path[len('crates/'):], number, line.rstrip()


LINES = list(source())


def having(pattern):
    shape = re.compile(pattern)
    return [f'{p}:{n}: {l.strip()}' for p, n, l in LINES if shape.search(l)]


def functions():
    """File, line, name, parameters and requires clauses of each function."""
    text = collections.defaultdict(list)
    for p, n, l in LINES:
        text[p].append((n, l))
    for path, lines in text.items():
        whole = '\n'.join(l for _, l in lines)
        for m in re.finditer(r'\bfn (\w+)(?:<[^(]*>)?\(([^)]*)\)(.*?)\n *\{', whole, re.S):
            parameters = [re.sub(r'\s+', ' ', a).strip() for a in m.group(2).split(',') if a.strip()]
            requires = re.findall(r'requires(?: \w+)? \{ (.*) \}', m.group(3))
            yield path, m.group(1), parameters, requires


def facts():
    """Facts of requires clauses that stand in three functions or more of a crate."""
    seen = collections.defaultdict(set)
    for path, name, _, requires in functions():
        crate = path.split('/')[0]
        for clause in requires:
            for fact in re.split(r' × ', clause):
                seen[crate, fact.strip('() ').replace('.now', '').replace('.old', '')].add(name)
    return [f'{c}: {f}: {len(s)} functions' for (c, f), s in sorted(seen.items()) if len(s) >= 3]


def pairs():
    """Pairs of parameters that stand side by side in four functions or more of a crate."""
    seen = collections.defaultdict(set)
    for path, name, parameters, _ in functions():
        crate = path.split('/')[0]
        named = [a for a in parameters if ':' in a]
        for a, b in zip(named, named[1:]):
            seen[crate, a, b].add(name)
    return [f'{c}: {a}, {b}: {len(s)} functions' for (c, a, b), s in sorted(seen.items()) if len(s) >= 4]


def twins():
    """Functions whose bodies read the same once names and numbers are left out, of three lines or more."""
    text = collections.defaultdict(list)
    for p, n, l in LINES:
        text[p].append(l)
    shapes = collections.defaultdict(list)
    for path, lines in text.items():
        whole = '\n'.join(lines)
        for m in re.finditer(r'\n( *)(?:pub(?:\(crate\))? )?fn (\w+).*?\n\1\{\n(.*?)\n\1\}', whole, re.S):
            body = m.group(3)
            if body.count('\n') < 2:
                continue
            shape = re.sub(r'b?"[^"]*"|\b\w+\b', 'x', re.sub(r'\s+', ' ', body))
            shapes[shape].append(f'{path}: {m.group(2)}')
    return [' = '.join(s) for s in shapes.values() if len(s) > 1]


def found():
    return {
        '1a own enums': having(r'^\s*(pub(\([a-z]+\))? )?enum '),
        '1b a match that hands an Option or Result on': having(
            r'(Some|Ok)\((_|\w+|\(\))\) => (Some|Ok)\(|None => (None|Err)\b|Err\(\w+\) => (Err\(|None)|return Err\(Refusal::|return None'),
        '1c a code or number for none': having(r'^\s*(255|SILENCE|VOID)$|best = VOID|== VOID|^\s*_ => 0,'),
        '2 bodies of one shape': twins(),
        '3a loops over a range': having(r'\bfor .* in .*\.\.'),
        '3b other loops that count': having(r'^\s*(while|loop)\b|= loop|\+= 1;|\.enumerate\(\)'),
        '3c loops over a list that choose, search or fill': having(r'^\s*for (\w+|\(.*\)) in &?(masks|tags|entries|word|bytes|s|numbers|calls|sheet|kings)\b'),
        '4a casts': having(r' as (u8|u16|u32|u64|u128|usize|i32|i64)\b'),
        '4b conversions by arithmetic or by hand': having(r'/ 256|% 256|\* 256|256 \*|from_utf8|fn of\('),
        '5a facts asked by three functions or more': facts(),
        '5b parameters side by side in four functions or more': pairs(),
        '6 arrays, counts and places': having(r'^\s*(pub )?(count|at|from|to|held|masks): (usize|\[u16; 16\])'),
        '7 a step chosen by a kind': having(r'match \(?(kind|call|self\.stage|name)\b'),
    }


def main():
    points = found()
    chosen = sys.argv[1] if len(sys.argv) > 1 else None
    for point, places in points.items():
        if chosen is None:
            print(f'{len(places):4}  {point}')
        elif point.startswith(chosen):
            print(f'== {point}: {len(places)}')
            for place in places:
                print('   ' + place)


main()
