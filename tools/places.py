#!/usr/bin/env python3
"""The places in src/ that docs/DESIGN-PASS.md counts, at a commit: tools/places.py [COMMIT], by default the checkout."""
import re
import subprocess
import sys


def run(*args):
    return subprocess.run(args, capture_output=True, text=True, check=True).stdout


def sources(commit):
    if commit:
        names = run('git', 'ls-tree', '-r', '--name-only', commit, 'crates').split()
    else:
        names = run('git', 'ls-files', 'crates').split()
    for name in names:
        if re.search(r'/src/.*\.rt$', name):
            yield name, run('git', 'show', f'{commit}:{name}') if commit else open(name).read()


def functions(text):
    """Name, parameters, clauses and body of each function with a body."""
    for m in re.finditer(r'^( *)(?:pub(?:\(crate\))? )?(?:final )?fn (\w+)[^(\n]*\(', text, re.M):
        depth, end = 1, m.end()
        while depth:
            depth += {'(': 1, ')': -1}.get(text[end], 0)
            end += 1
        shut = re.compile(r'^' + m[1] + r'\}$', re.M).search(text, end)
        body = re.compile(r'^' + m[1] + r'\{$| \{$', re.M).search(text, end)
        if shut and body and body.start() < shut.start():
            yield m[2], text[m.end():end - 1], text[end:body.start()], text[body.end():shut.start()]


def parameters(text):
    return [p.strip() for p in text.replace('\n', ' ').split(',') if p.strip()]


def shape(body):
    """The body with each name, number and string replaced: what two twins share."""
    body = re.sub(r'//.*', '', body)
    body = re.sub(r'"[^"]*"', 's', body)
    words = re.findall(r"[A-Za-z_]\w*|\d+|\S", body)
    keep = {'while', 'for', 'in', 'if', 'else', 'match', 'return', 'let', 'mut', 'loop', 'break', 'as'}
    return ' '.join(w if w in keep or not re.match(r'\w', w) else 'n' if w[0].isdigit() else 'x' for w in words)


def show(point, what, places):
    print(f'{point}: {what}: {len(places)}')
    for place in places:
        print(f'    {place}')


def main():
    commit = sys.argv[1] if len(sys.argv) > 1 else ''
    enums, flags, loops, thin, long, switches, arrays = [], [], [], [], [], [], []
    shapes, asked, given = {}, {}, {}
    for name, text in sources(commit):
        where = name.replace('crates/', '').replace('/src', '').replace('.rt', '')
        text = text.split('#[cfg(test)]')[0]
        enums += [f'{where} {m[1]}' for m in re.finditer(r'^(?:pub(?:\(crate\))? )?enum (\w+)', text, re.M)]
        for m in re.finditer(r'^(?:pub(?:\(crate\))? )?struct (\w+)[^;{]*\{(.*?)^\}', text, re.M | re.S):
            flags += [f'{where} {m[1]}.{f}' for f in re.findall(r'^ +(?:pub(?:\(crate\))? )?(\w+): bool', m[2], re.M)]
            if len(re.findall(r': (?:&[^\[]*)?\[', m[2])) > 1:
                arrays.append(f'{where} {m[1]}')
            shapes.setdefault('struct ' + shape(m[2]), []).append(f'{where} {m[1]}')
        loops += [f'{where}:{text[:m.start()].count(chr(10)) + 1} {m[0].strip()}' for m in re.finditer(r"^ +(?:'\w+: )?(?:while|loop)\b.*$", text, re.M)]
        switches += [f'{where}: {m[0].strip()}' for m in re.finditer(r'^.*(match action|\bdyn |\bfn\().*$', text, re.M)]
        for fn, params, claims, body in functions(text):
            shapes.setdefault(shape(body), []).append(f'{where} {fn}')
            if len(parameters(params)) > 5:
                long.append(f'{where} {fn} {len(parameters(params))}')
            if body.count('\n') == 2 and shape(body).count('x') <= 3 and '(' not in body and '{' not in body:
                thin.append(f'{where} {fn}: {body.strip()}')
            for m in re.finditer(r'(requires|ensures) \w* ?\{ (.*) \}$', claims, re.M):
                facts = asked if m[1] == 'requires' else given
                facts.setdefault(re.sub(r'\.(old|new|now|entry)\b', '', m[2]), []).append(f'{where} {fn}')
    show(1, 'enums', enums)
    show(1, 'flags in structs', flags)
    twins = [' = '.join(p) for s, p in shapes.items() if len(p) > 1 and (len(s) > 40 or s.startswith('struct x : x , x : x ,'))]
    show(2, 'bodies and structs alike but for names, types and numbers', twins)
    show(3, 'while and loop', loops)
    show(4, 'functions that are one operator, cast or field', thin)
    show(5, 'functions of more than five parameters', long)
    for what, facts in (('require', asked), ('ensure', given)):
        show(5, f'clauses that three functions or more {what}', [f'{c}: {", ".join(p)}' for c, p in facts.items() if len(p) > 2])
    show(6, 'structs with several arrays or slices', arrays)
    show(7, 'switches on a step, tables of functions', switches)


main()
