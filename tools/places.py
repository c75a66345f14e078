#!/usr/bin/env python3
"""Where src/ has a form that docs/DESIGN-PASS.md counts: python3 tools/places.py [POINT] lists the places of one point, or the counts of all.

It reads text, so it finds candidates: the page says which of them are kept, and why."""
import collections, difflib, glob, os, re, sys

os.chdir(os.path.join(os.path.dirname(os.path.abspath(__file__)), '..'))
SOURCES = {path: open(path).read() for path in sorted(glob.glob('crates/*/src/*.rt'))}
FUNCTION = re.compile(r'^ *(?:pub )?(?:extern "C" )?fn (\w+)[^(]*\((.*?)\)(?: -> [^{]*?)?\s*(?:\n|{)', re.S | re.M)


def lines(pattern):
    """Each line of src/ that has the pattern."""
    found = re.compile(pattern)
    return [f'{path}:{number}: {line.strip()}' for path, text in SOURCES.items()
            for number, line in enumerate(text.split('\n'), 1) if found.search(line)]


def functions():
    """Each function: its file, name, parameters and text, up to the next function."""
    for path, text in SOURCES.items():
        found = list(FUNCTION.finditer(text))
        ends = [match.start() for match in found[1:]] + [len(text)]
        for match, end in zip(found, ends):
            yield path, match.group(1), re.findall(r'(\w+): ', match.group(2)), text[match.start():end].split('\n}\n')[0]


def twins():
    """Pairs of functions of eight lines or more whose words agree to nine tenths."""
    long = [(path, name, re.findall(r'\w+|[^\w\s]', text)) for path, name, _, text in functions() if text.count('\n') >= 8]
    for at, (path, name, words) in enumerate(long):
        for other, its, theirs in long[at + 1:]:
            if 'orgnevis_c' in path + other:
                continue
            matcher = difflib.SequenceMatcher(None, words, theirs, autojunk=False)
            if matcher.real_quick_ratio() > .9 and matcher.quick_ratio() > .9 and matcher.ratio() > .9:
                yield f'{path}: {name} and {other}: {its}'


def together(*names):
    """The functions that take all of these parameters."""
    return [f'{path}: {name}({", ".join(names)})' for path, name, parameters, _ in functions() if set(names) <= set(parameters)]


def facts():
    """The facts of requires clauses that stand in three functions or more."""
    stands = collections.defaultdict(set)
    for path, name, _, text in functions():
        for clause in re.findall(r'requires(?: \w+)? \{ (.*) \}', text):
            for fact in re.split(r' × |\(|\)', clause):
                if re.search(r'[≤<≡]|^Ready', fact):
                    stands[fact.strip()].add(f'{path}: {name}')
    return [f'{fact}: {len(where)} functions' for fact, where in stands.items() if len(where) >= 3]


POINTS = {
    '1 an enum with a case that holds nothing, for none or for well': lambda: lines(r'^\s+(Nothing|Unsure|NoState|NoMode|Unset|No|None|NoCall|Granted|Same|End),$'),
    '1 a flag in a struct, or in an answer': lambda: lines(r'^\s+(pub )?\w+: bool,$'),
    '1 a number for a kind or a refusal': lambda: lines(r'fn \w+_no\('),
    '2 two functions that differ little': lambda: list(twins()),
    '3 a loop that counts by hand': lambda: lines(r'^\s*while '),
    '4 a conversion by a function of its own': lambda: lines(r'fn (wide|word|word8|word32|plus|one_more|least|distance|is_minus)\('),
    '4 arithmetic by the path of std::num': lambda: lines(r'std::num::'),
    '4 printing by hand': lambda: lines(r'fn (say|tell)\w*\(rt'),
    '5 the window\'s two sides': lambda: together('a', 'b'),
    '5 mode, MAX and C': lambda: together('mode', 'max', 'cap'),
    '5 class, id and n': lambda: together('class', 'id', 'n'),
    '5 a state with its carry and chunk': lambda: together('s', 'carry', 'chunk') + together('l', 'carry', 'chunk'),
    '5 a fact in three contracts': facts,
    '6 a buffer and a place in it': lambda: together('out', 'at') + together('carry', 'live'),
    '7 a kind that says which step to run': lambda: lines(r'(needle: Needle|list: List)'),
}

if __name__ == '__main__':
    for title, places in POINTS.items():
        found = places()
        if len(sys.argv) < 2:
            print(f'{len(found):4} {title}')
        elif title.startswith(sys.argv[1]):
            print(f'{len(found):4} {title}')
            print('\n'.join('     ' + place for place in found))
