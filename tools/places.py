#!/usr/bin/env python3
"""Lists the places in crates/*/src that a design pass has to look at, point by point (docs/DESIGN-PASS.md).

    python3 tools/places.py [POINT ..] [--count] [--root FOLDER]

A place is a line that one of the point's patterns names. It is a place to look at, not a verdict: the page says of each
whether it was changed, why it was kept, or that it is no case of the point.
"""
import collections
import pathlib
import re
import sys

ROOT = pathlib.Path(sys.argv[sys.argv.index('--root') + 1]) if '--root' in sys.argv else pathlib.Path(__file__).resolve().parents[1]
FILES = sorted(ROOT.glob('crates/*/src/**/*.rt'))


def text(path):
    return path.read_text()


def name(path):
    return str(path.relative_to(ROOT / 'crates'))


def lines(pattern, skip=None):
    """The code lines that a pattern names."""
    found = []
    for path in FILES:
        for number, line in enumerate(text(path).split('\n'), 1):
            code = line.split('//')[0]
            if re.search(pattern, code) and not (skip and re.search(skip, code)):
                found.append((name(path), number, line.strip()))
    return found


def functions(path):
    """Each function of a file: its first line, its name, its parameters, its clauses, its body."""
    source = text(path)
    found = []
    for head in re.finditer(r'^( *)(pub(?:\([a-z]+\))? )?fn (\w+)', source, re.M):
        indent = head.group(1)
        rest = source[head.start():]
        end = re.search(r'^' + indent + r'\}$|^.*[;}]$(?<=;)|^' + indent + r'\{\}$', rest, re.M)
        body = rest[:end.end()] if end else rest
        found.append((source[:head.start()].count('\n') + 1, head.group(3), body))
    return found


def parameters(body):
    """A function's parameters: what stands between the parentheses behind its name and its type parameters."""
    text = body[re.search(r'\bfn \w+', body).end():].replace('->', '  ')
    start = depth = 0
    for i, c in enumerate(text):
        if depth == 0 and c == '(':
            start = i
            break
        depth += {'<': 1, '>': -1}.get(c, 0) + {'(': 1, ')': -1}.get(c, 0) * (depth > 0)
    for i, c in enumerate(text[start:], start):
        depth += {'(': 1, ')': -1}.get(c, 0)
        if depth == 0:
            return [' '.join(p.split()) for p in re.split(r',(?![^<\[(]*[>\])])', text[start + 1:i]) if p.strip()]
    return []


def shape(body):
    """A body with its names, numbers and texts taken out, for finding functions of one shape."""
    at = re.search(r'^ *\{$|\{\n', body, re.M)
    code = body[at.start():] if at else body
    code = re.sub(r'//.*', '', code)
    code = re.sub(r"b?'(\\.|[^'\\])'|b?\"[^\"]*\"|\b\d[\d_]*\b", '0', code)
    code = re.sub(r'\b(?!if\b|else\b|match\b|for\b|in\b|while\b|return\b|let\b|mut\b|Some\b|None\b|Ok\b|Err\b|true\b|false\b|self\b|as\b)[A-Za-z_]\w*\b', 'x', code)
    return re.sub(r'\s+', '', code)


def option_likes():
    """1. Enums to be held against Option and Result; flags; numbers for kinds; `?` written out."""
    return [('enum', lines(r'\benum \w+')),
            ('flag in a type', lines(r'^\s*(pub(\(\w+\))? )?\w+: bool,')),
            ('number for a kind', lines(r'\b(rank|highest|kind|level|indicator|number)\w*: (u8|u16|usize|Indicator)\b|type \w+ = u\d+|fn (rank|number)\b.*-> (u8|Option<u8>)')),
            ('value for none', lines(r'unwrap_or\(0\)|else \{ 0 \}|=> 0,$|None => Shape::Text')),
            ('`?` written out', lines(r'Err\(\w*\) => Err\(|None => Err\(|let Ok\(.*else|let Some\(.*else|\.is_err\(\)|Ok\(\(\)\) => Ok\(\(\)\)|Err\(_\) =>|None => return|None => Ok\(')),
            ('`match` on an Option', lines(r'^\s*None =>'))]


def twins():
    """2. Functions whose bodies have one shape, and types with the same fields."""
    groups = collections.defaultdict(list)
    for path in FILES:
        for number, title, body in functions(path):
            form = shape(body)
            if len(form) > 24:
                groups[form].append((name(path), number, 'fn ' + title))
    alike = [place for group in groups.values() if len(group) > 1 for place in sorted(group)]
    kinds = collections.defaultdict(list)
    for path in FILES:
        for found in re.finditer(r'^(?:pub(?:\([a-z]+\))? )?(struct|enum) (\w+)[^{;(]*(\{.*?^\}|\([^)]*\);)', text(path), re.M | re.S):
            body = re.sub(r'//.*|ghost.*', '', found.group(3))
            fields = tuple(sorted(re.findall(r'(\w+): ', body))) or tuple(re.findall(r'\w+', body))
            if len(fields) > 1:
                kinds[fields].append((name(path), text(path)[:found.start()].count('\n') + 1, found.group(1) + ' ' + found.group(2)))
    same = [place for group in kinds.values() if len(group) > 1 for place in sorted(group)]
    only = lines(r'^ {4,8}(self\.|super::)?(\w+)\(([\w.]+(, [\w.]+)*)?\)$')
    return [('functions of one shape', alike), ('types of one shape', same), ('a body that is one call', only)]


def loops():
    """3. Loops, and indices counted by hand."""
    return [('`while` and `loop`', lines(r'\bwhile\b|\bloop \{')),
            ('`enumerate`', lines(r'\.enumerate\(\)')),
            ('`for` over numbers', lines(r'for \w+ in [^{]*\.\.')),
            ('other `for`', lines(r'\bfor \w+ in ', r'\.\.|enumerate')),
            ('index or range by hand', lines(r'\w\[[^\]]*(\bi\b|\bk\b|\bn\b|\+|-|\.\.)[^\]]*\]', r'^\s*(ensures|requires|ghost|#)'))]


def by_hand():
    """4. Equality, order, copying, conversion, printing."""
    return [('equality', lines(r'fn (are_|is_same|go_together|is_like|same_)')),
            ('conversion', lines(r'fn (from_|to_|number|numbers|line_of|card_of|text_of|name_of|kind_of|first_card|card_at|filled|padded)\w*')),
            ('copying', lines(r'copy_from_slice|\[i\] = ')),
            ('printing', lines(r"-> &'static str|Display for")),
            ('type without a derive', [(f, n, l) for f, n, l in lines(r'^(pub(\(\w+\))? )?(struct|enum) \w+') if '#[derive' not in text(ROOT / 'crates' / f).split('\n')[n - 2]])]


def repeated():
    """5. Clauses that stand in three or more functions, and parameters that stand together in three or more."""
    clauses = collections.defaultdict(list)
    pairs = collections.defaultdict(list)
    for path in FILES:
        crate = name(path).split('/')[0]
        for number, title, body in functions(path):
            for clause in set(re.findall(r'^ *((?:requires|ensures)[^\n]*)', body, re.M)):
                fact = re.sub(r'^(requires|ensures) (\w+ )?', r'\1 ', clause)
                clauses[crate, fact].append((name(path), number, title + ': ' + fact))
            given = [p for p in parameters(body) if ':' in p and not p.startswith('rt:')]
            for i, p in enumerate(given):
                for q in given[i + 1:]:
                    pairs[crate, p, q].append((name(path), number, title + ': ' + p + ', ' + q))
    facts = [c for (crate, fact), places in clauses.items() if len(places) > 2 for c in places]
    given = [c for places in pairs.values() if len(places) > 2 for c in places]
    return [('clause in three or more functions', facts), ('pair of parameters in three or more functions', given)]


def buffers():
    """6. Arrays, several vectors side by side, places and lengths in types."""
    several = []
    for path in FILES:
        for found in re.finditer(r'^(?:pub(?:\([a-z]+\))? )?struct (\w+)[^{;(]*\{.*?^\}', text(path), re.M | re.S):
            if len(re.findall(r': Vec<', found.group(0))) > 1:
                several.append((name(path), text(path)[:found.start()].count('\n') + 1, found.group(1)))
    return [('array in a type', lines(r'^\s*(pub(\(\w+\))? )?\w+: \[.*; \w+\],')),
            ('vectors side by side', several),
            ('place or length in a type', lines(r'^\s*(pub(\(\w+\))? )?(at|length|first|field|place|places|size|width|card|line|factor1|result|rest|end|from): .*(usize|u8|u16)\b.*,$')),
            ('search by hand', lines(r'\.find\(|find_\w+\(|first_equal\('))]


def switches():
    """7. Switches on what to do, and flags that choose."""
    return [('match on a kind', lines(r'match (\*?self(\.\w+)?|what|kind|operation|code|\w+\.(what|kind)|refusal|rounding|sign|style)\b.*\{')),
            ('flag that chooses', lines(r'\bif (is_\w+|taken|negative|minus) \{|\b(is_total|taken|negative|minus): bool')),
            ('closure, impl Fn, dyn', lines(r'\|\w*\| |impl Fn|: Fn\w*\(|dyn '))]


def proofs():
    """8. Answers and lemmas, by crate."""
    found = []
    for crate in sorted(p.name for p in (ROOT / 'crates').iterdir() if (p / 'src').is_dir()):
        answers = lemmas = rows = 0
        for path in sorted((ROOT / 'crates' / crate / 'proofs').glob('**/*.antt')):
            source = text(path)
            rows += source.count('\n')
            heads = len(re.findall(r'^(?:abbrev |unfoldable )?pub [^ ]+ :', source, re.M))
            if path.name in ('Answers.antt', 'Invariants.antt', 'Proof.antt'):
                answers += heads
            else:
                lemmas += len(re.findall(r'^(?:abbrev |unfoldable )?(?:pub )?[\w\'-]+ :', source, re.M))
        found.append((crate, answers + lemmas, f'{answers} answers and invariants, {lemmas} lemmas, {rows} lines'))
    return [('answers and lemmas of a crate', found)]


POINTS = {'1': option_likes, '2': twins, '3': loops, '4': by_hand, '5': repeated, '6': buffers, '7': switches, '8': proofs}

wanted = [a for a in sys.argv[1:] if a in POINTS] or list(POINTS)
for point in wanted:
    print(POINTS[point].__doc__)
    for title, places in POINTS[point]():
        total = sum(n for _, n, _ in places) if point == '8' else len(places)
        print(f'  {title}: {total}')
        if '--count' not in sys.argv:
            for file, number, line in places:
                print(f'    {file}:{number}: {line}')
