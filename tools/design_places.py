#!/usr/bin/env python3
"""design_places.py [COMMIT] [--list] [--point N]: counts the places of docs/DESIGN-PASS.md in crates/*/src, here or as they stood
at a commit.

Each point has its own reading of the text, which is written above its function. A row is a place to look at: docs/DESIGN-PASS.md
says of each whether it was changed or why it stays.
"""
import io, os, re, subprocess, sys, tarfile

ROOT = os.path.dirname(os.path.dirname(os.path.abspath(__file__)))


def sources(commit):
    """Returns the text of each file of crates/*/src, by path, without comments."""
    texts = {}
    if commit:
        command = ['git', '-C', ROOT, 'archive', commit, 'crates']
        packed = subprocess.run(command, capture_output=True, check=True).stdout
        with tarfile.open(fileobj=io.BytesIO(packed)) as tree:
            for it in tree:
                if re.fullmatch(r'crates/\w+/src/.*\.rt', it.name):
                    texts[it.name] = tree.extractfile(it).read().decode()
    else:
        for folder, _, files in os.walk(f'{ROOT}/crates'):
            for file in files:
                path = os.path.relpath(f'{folder}/{file}', ROOT)
                if re.fullmatch(r'crates/\w+/src/.*\.rt', path):
                    texts[path] = open(f'{folder}/{file}', encoding='utf-8').read()
    return {path: re.sub(r'//[^\n]*', '', texts[path]) for path in sorted(texts)}


def types(text, kind):
    """Yields the name, the body and the line of each enum or struct."""
    for m in re.finditer(rf'^(?:pub )?{kind} (\w+)(?:<[^>]*>)?\s*\{{(.*?)^\}}', text, re.M | re.S):
        yield m[1], m[2], text.count('\n', 0, m.start()) + 1


HEAD = re.compile(r'^[ \t]*(?:pub )?(?:extern "C" )?fn (\w+)(?:<[^(]*>)?\((.*?)\)(?: -> (.*?))?'
                  r'\s*(?:$|\{\n|(?=requires|ensures|ghost))', re.M | re.S)


def functions(text):
    """Yields the name, the parameters, the result, the body and the line of each function."""
    for m in HEAD.finditer(text):
        end = re.compile(r'^\}', re.M).search(text, m.end())
        whole = text[m.end():end.start() if end else len(text)]
        body = whole.partition('\n{\n')[2] or whole
        yield m[1], ' '.join(m[2].split()), m[3] or '', body, text.count('\n', 0, m.start()) + 1


# 1: an enum with a case for what failed or is not there (or the three of an order); a struct with a bool or a number for the refusal;
# a function that tells by a bool whether it filled what it was lent.
FAILED = re.compile(r'^\s*(Refused|No|Nothing|Short|Bad|Wrong|Unknown|NotWritten|NotRead|One|Beyond|Less)\b', re.M)


def outcomes(path, text):
    for name, body, line in types(text, 'enum'):
        if FAILED.search(body) and name != 'Refusal':
            yield line, f'enum {name}'
    for name, body, line in types(text, 'struct'):
        if re.search(r'\b\w+: bool\b|\b(refusal|number): u64\b|\bsaid: |\boutcome: |\badded: ', body):
            yield line, f'struct {name}'
    for name, given, told, _, line in functions(text):
        if told.strip() == 'bool' and '&mut' in given:
            yield line, f'fn {name} -> bool'


# 2: two functions whose texts are the same but for names of functions and types, and numbers (12 words and more).
def twins(texts):
    seen = {}
    for path, text in texts.items():
        for name, given, told, body, line in functions(text):
            shape = re.sub(r'\b(u8|u16|u32|u64|usize|\[u8; 25\])', 'T', f'{given} {told} {body}')
            shape = re.sub(r'\b[A-Z]\w*(::\w+)?|\b\w+::', 'N', shape)
            shape = re.sub(r'\b\w+(?=\()', 'f', re.sub(r'\b\d\w*', '0', shape))
            shape = re.sub(r'\b(word|bank)\b', 'held', shape)
            words = re.findall(r'\w+|[^\w\s]', shape)
            if len(words) >= 25:
                seen.setdefault(tuple(words), []).append((path, line, f'fn {name}'))
    for found in seen.values():
        if len(found) > 1:
            for path, line, what in found:
                yield path, line, what + ' is like ' + found[0 if (path, line, what) != found[0] else 1][2]


# 3: a loop that is not `for`.
def loops(path, text):
    for number, line in enumerate(text.split('\n'), 1):
        if re.match(r'\s*(while|loop)\b', line):
            yield number, line.strip()


# 4: a function that only turns a case or a number into another by one match, or whose name says that it compares, copies, converts or
# prints. Names of document 01 that mean a slot's way (insert_from_back, remove_to_back), and the exports for C, do not count.
BY_HAND = re.compile(r'(^|_)(same|equal|eq|compare|copy|copied|number|digit|digits|print|text|less|from|to|code|code_of)(_|$)')
NOT_BY_HAND = re.compile(r'from_back|to_back|from_value|from_bytes|cherchivola_')


def by_hand(path, text):
    for name, given, told, body, line in functions(text):
        only = re.fullmatch(r'\s*match \w+ \{(?:[^{}]|\{[^{}]*\})*\}\s*', body)
        if only or BY_HAND.search(name) and not NOT_BY_HAND.search(name):
            yield line, f'fn {name}'


# 5: three parameters that stand side by side, with the same names and types, in three functions or more: one row for each such run.
def travelling(texts):
    runs = {}
    for path, text in texts.items():
        for name, given, *_ in functions(text):
            params = [it.strip() for it in re.split(r',(?![^\[<(]*[\]>)])', given) if it.strip()]
            for at in range(len(params) - 2):
                runs.setdefault(tuple(params[at:at + 3]), []).append((path, name))
    for run, found in sorted(runs.items(), key=lambda it: -len(it[1])):
        if len(found) >= 3:
            yield found[0][0], 0, f'({", ".join(run)}) in {len(found)} functions'


# 6: a buffer with its length beside it: a slice or an array and a number with such a name, in a struct or a function's parameters.
LENGTH = re.compile(r'\b(n|len|length|count|many|size|held|kept|used): (usize|u64)\b')


def lengths(path, text):
    for name, body, line in types(text, 'struct'):
        if re.search(r': &?\[|: \[', body) and LENGTH.search(body) or len(re.findall(r': \[\w+; \d+\]', body)) > 1:
            yield line, f'struct {name}'
    for name, given, _, _, line in functions(text):
        if re.search(r': &(mut )?\[|: \[', given) and LENGTH.search(given):
            yield line, f'fn {name}'


# 7: a step told by a number: a parameter or field named for a kind, a step or a stage; a chain of three comparisons of one name.
def steps(path, text):
    for number, line in enumerate(text.split('\n'), 1):
        if re.search(r'\b(kind|step|stage|which|call|mode): (\w+)', line) and not line.strip().startswith('use'):
            yield number, line.strip()
    for name, _, _, body, line in functions(text):
        for word in set(re.findall(r'if (\w+) == ', body)):
            if len(re.findall(rf'if {word} == ', body)) >= 3:
                yield line, f'fn {name} goes by {word}'


POINTS = {1: outcomes, 2: twins, 3: loops, 4: by_hand, 5: travelling, 6: lengths, 7: steps}


def main():
    words = sys.argv[1:]
    listed = '--list' in words
    point = int(words[words.index('--point') + 1]) if '--point' in words else 0
    commits = [it for it in words if re.fullmatch(r'[0-9a-f]{7,40}|HEAD', it)]
    texts = sources(commits[0] if commits else None)
    for number, reading in POINTS.items():
        if point and number != point:
            continue
        if number in (2, 5):
            found = list(reading(texts))
        else:
            found = [(path, *it) for path, text in texts.items() for it in reading(path, text)]
        print(f'point {number}: {len(found)}')
        if listed:
            for path, line, what in found:
                print(f'  {path}:{line}: {what}')


main()
