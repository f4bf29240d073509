"""The edits of a file: each replaces one piece of it by another of the same kind."""
import random
import re
from collections import defaultdict

import texts

OPERATORS = {'+': '-*', '-': '+', '*': '+/', '/': '*%', '%': '/', '&': '|^', '|': '&^', '^': '&|'}
OPERATORS = {k: list(v) for k, v in OPERATORS.items()} | {'<<': ['>>'], '>>': ['<<'], '&&': ['||'], '||': ['&&']}
COMPARISONS = {'<': ['<=', '>'], '<=': ['<', '>='], '>': ['>=', '<'], '>=': ['>', '<='], '==': ['!=', '<='], '!=': ['==', '<']}
ANTT_OPERATORS = {'+': ['-', '*'], '-': ['+'], '*': ['+', '/'], '/': ['*', '%'], '%': ['/'], '^': ['*'], '&&': ['||'], '||': ['&&']}
ANTT_RELATIONS = {'≤': ['<'], '<': ['≤'], '≡': ['≢'], '≢': ['≡']}
ANTT_WORDS = {'leb': ['ltb', 'eqb'], 'ltb': ['leb', 'eqb'], 'eqb': ['leb', 'ltb'], 'nat_le': ['nat_lt', 'nat_eq'], 'nat_lt': ['nat_le', 'nat_eq'], 'nat_eq': ['nat_le', 'nat_lt'],
              'min': ['max'], 'max': ['min'], 'true': ['false'], 'false': ['true']}
# where a name comes from that an edit may have to bring in
HOME = 'Rattle.std.specs.Prelude'
NUMBER = re.compile(r'(?<![\w.«{])(0x[0-9A-Fa-f]+|0b[01]+|\d+)(?=(?:u8|u32|u64|usize)?(?!\w))|(?<=\.\.)(\d+)')


class Edit:
    """One edit: the file, the piece that goes, what comes in its place, and a name to bring in."""

    def __init__(self, path, part, span, new, kind, bring=None):
        self.path, self.line, self.kind, self.new, self.bring = path, part.line, kind, new, bring
        self.start, self.end = part.start + span[0], part.start + span[1]
        self.column = part.column + span[0] + 1
        self.old = part.text[span[0]:span[1]]
        self.context = part.text.strip()

    def apply(self, text):
        """The file's text with the edit made."""
        assert text[self.start:self.end] == self.old, f'{self.id}: the file has changed'
        text = text[:self.start] + self.new + text[self.end:]
        if self.bring:
            at = text.index('\nuse ')
            text = text[:at] + f'\nuse {self.bring}' + text[at:]
        return text

    def told(self):
        """What it does, in a few words."""
        return f'{self.kind}: `{self.old.strip()}` to `{self.new.strip()}`' if self.new else f'{self.kind}: `{self.old.strip()}`'


def neighbours(number):
    """A constant one more and one less, written as it was."""
    base = {'0x': 16, '0b': 2}.get(number[:2], 10)
    value, digits = int(number, base), len(number) - 2
    shape = {16: f'0x{{:0{digits}X}}', 2: f'0b{{:0{digits}b}}', 10: '{}'}[base]
    return [shape.format(n) for n in (value + 1, value - 1) if n >= 0]


def beside(name, names):
    """The next and the previous of a list of names."""
    names = [n for n in names]
    i = names.index(name)
    return sorted({names[(i + 1) % len(names)], names[i - 1]} - {name})


def by_table(part, pattern, table, kind):
    """Each match of a pattern, replaced by what a table has for it."""
    for m in re.finditer(pattern, part.text):
        for new in table.get(m.group(1), []):
            yield m.span(1), new, kind


def by_numbers(part):
    """Constants to their neighbours."""
    for m in NUMBER.finditer(part.text):
        for new in neighbours(m.group()):
            yield m.span(), new, 'constant'


def by_types(part, names, pattern, kind):
    """A name replaced by its neighbours among those of the same type."""
    groups = defaultdict(list)
    for name, its in names.items():
        groups[its].append(name)
    for m in re.finditer(pattern, part.text):
        if m.group(1) in names:
            for new in beside(m.group(1), groups[names[m.group(1)]]):
                yield m.span(1), new, kind


# ---- Rattle


def rattle_rules(part, tables):
    """All edits of one part of a Rattle file, as span, text and kind."""
    yield from by_table(part, r'(?<= )(<<|>>|&&|\|\||[-+*/%&|^])(?= )', OPERATORS, 'operator')
    yield from by_table(part, r'(?<= )(<=|>=|==|!=|<|>)(?= )', COMPARISONS, 'comparison')
    yield from by_table(part, r'\b(true|false)\b', {'true': ['false'], 'false': ['true']}, 'constant')
    yield from by_numbers(part)
    for m in re.finditer(r'!(?=[a-z0-9(])', part.text):
        yield m.span(), '', 'not left out'
    for m in re.finditer(r"b'.'", part.text):
        yield m.span(), "b'*'", 'constant'
    for m in re.finditer(r'\b(b|bit)([0-3])\b(?!:)', part.text):
        yield m.span(2), str((int(m.group(2)) + 1) % 4), 'plane'
    for span, new, kind in by_types(part, part.bound, r'(?<![\w.:])(\w+)\b(?![\w(:]|\s=\s)', 'parameter'):
        yield span, f'{part.text[slice(*span)]}: {new}' if part.field else new, kind
    for record in tables.fields.values():
        yield from by_types(part, record, r'(?<=\w\.)([a-z]\w*)\b(?!\()', 'register')
    yield from enum_rules(part, tables)
    yield from call_rules(part, tables)
    if part.statement and re.fullmatch(r'\s*(return\b.*|[\w.]+(\[.*\])? = .*|[\w:]+\(.*\));\s*', part.text):
        yield (0, len(part.text)), '', 'left out'


def enum_rules(part, tables):
    """A variant, or a constant of a type, replaced by its neighbours."""
    for m in re.finditer(r'\b([A-Z]\w*)::([A-Z]\w*)', part.text):
        variants, constants = tables.variants.get(m.group(1), {}), tables.constants.get(m.group(1), [])
        alike = [v for v, held in variants.items() if held == variants.get(m.group(2))]
        for names in (alike, constants):
            for new in beside(m.group(2), names) if m.group(2) in names else []:
                yield m.span(2), new, 'variant'


def call_rules(part, tables):
    """A function called in place of another that takes and gives the same."""
    for m in re.finditer(r'(?<![\w.])((?:\w+::)*)(\w+)\(', part.text):
        functions = tables.functions.get(m.group(1).rstrip(':').split('::')[-1], {})
        alike = [f for f, its in functions.items() if its == functions.get(m.group(2)) and its[0]]
        for new in beside(m.group(2), alike) if m.group(2) in alike else []:
            yield m.span(2), new, 'call'


# ---- antt


def antt_rules(part, tables):
    """All edits of one part of an antt file, as span, text and kind."""
    yield from by_table(part, r'(?<= )(&&|\|\||[-+*/%^])(?= )', ANTT_OPERATORS, 'operator')
    yield from by_table(part, r'(?<= )([≤<≡≢])(?= )', ANTT_RELATIONS, 'comparison')
    yield from by_table(part, r'(?<![\w.«])(nat_le|nat_lt|nat_eq|leb|ltb|eqb|min|max|true|false)(?![\w»])', ANTT_WORDS, 'test')
    yield from by_numbers(part)
    for record in tables.fields.values():
        yield from by_types(part, record, r'(?<=[\w)»]\.)(«?\w+»?)', 'register')
    yield from by_types(part, part.bound, r"(?<![\w.«′'])([a-z]\w*)(?![\w»′'])(?! = )", 'parameter')
    for group in tables.groups:
        for m in re.finditer(r"(?<![\w.])(«?[A-Z]\w*»?)(?![\w»])", part.text):
            for new in beside(m.group(1), group) if m.group(1) in group else []:
                yield m.span(1), new, 'variant'
    yield from by_types(part, tables.scope, r"(?<![\w.«])([A-Za-z]\w*)(?![\w»])", 'definition')
    yield from pick_rules(part)


def atom(text, at):
    """The end of the argument that begins at a place, or None."""
    if at >= len(text) or text[at] == ' ':
        return None
    depth, i = 0, at
    while i < len(text) and (depth or text[i] not in ' );'):
        depth += (text[i] == '(') - (text[i] == ')')
        i += 1
    return i if depth == 0 and i > at else None


def pick_rules(part):
    """`pick` with its two branches swapped."""
    for m in re.finditer(r'\bpick ', part.text):
        spans, at = [], m.end()
        for _ in range(3):
            end = atom(part.text, at)
            if end is None:
                break
            spans, at = spans + [(at, end)], end + 1
        if len(spans) == 3:
            a, b = (part.text[s:e] for s, e in spans[1:])
            yield (spans[1][0], spans[2][1]), f'{b} {a}', 'branches'


# ---- a file's edits


def edits_of(path, text, parts, rules, tables, prefix):
    """Every edit of a file, each with its id."""
    names = texts.imported(text)[0] if prefix.startswith('specs/') else None
    found, seen = [], set()
    for part in parts:
        for span, new, kind in rules(part, tables):
            edit = Edit(path, part, span, new, kind, bring_for(new, names))
            if new != edit.old and (edit.start, edit.end, new) not in seen:
                seen.add((edit.start, edit.end, new))
                found.append(edit)
    found.sort(key=lambda e: (e.line, e.column, e.end, e.new))
    count = defaultdict(int)
    for e in found:
        count[e.line, e.column] += 1
        e.id = f'{prefix}:{e.line}:{e.column}:{count[e.line, e.column]}'
    return found


def bring_for(new, names):
    """The name that an edit has to bring in, if any."""
    word = new if re.fullmatch(r'\w+', new) else f'◌{new}◌'
    if names is None or word in names or not (new in ANTT_WORDS or new in ANTT_OPERATORS or new in ANTT_RELATIONS):
        return None
    return f'{HOME}.{{{word}}}'


def chosen(edits, seed, most):
    """At most so many edits of a file, by a seed, the kinds in turn."""
    kinds = defaultdict(list)
    for e in edits:
        kinds[e.kind].append(e)
    chance = random.Random(seed)
    for kind in sorted(kinds):
        chance.shuffle(kinds[kind])
    taken = []
    while len(taken) < most and any(kinds.values()):
        for kind in sorted(kinds):
            if kinds[kind] and len(taken) < most:
                taken.append(kinds[kind].pop())
    return taken


def in_turn(files):
    """The edits of several files, a file at a time in turn, so that each gets its share early."""
    rows = max((len(f) for f in files), default=0)
    return [f[i] for i in range(rows) for f in files if i < len(f)]
