"""Which parts of a file are swept, and which names may stand for each other."""
import re
from collections import defaultdict
from pathlib import Path

CLAUSE = re.compile(r'(requires|ensures|ghost|invariant|measure)\b')
FUNCTION = re.compile(r'(pub )?(extern "C" )?fn (\w+)')
# a ghost member that an impl gives: what its functions promise
MEMBER = re.compile(r'ghost \w+ = ')
# a type as far as the next parameter: what stands within brackets belongs to it
TYPE = r'(?:[^,()<>]|<(?:[^<>]|<[^<>]*>)*>|\([^()]*\))+?'


class Part:
    """A piece of a line that is swept: where it begins in the file, its text, and the names that its definition binds; whether it is a statement, and a record's field by its name alone."""

    def __init__(self, start, line, column, text, bound, statement=False, field=False):
        self.start, self.line, self.column, self.text = start, line, column, text
        self.bound, self.statement, self.field = bound, statement, field


def lines_of(text):
    """Number, place and text of each line."""
    at = 0
    for number, line in enumerate(text.split('\n'), 1):
        yield number, at, line
        at += len(line) + 1


# ---- Rattle


def parameters(head):
    """The parameters of a function, name and type."""
    inside = head[head.index('(') + 1:] if '(' in head else ''
    inside = inside.split(' ensures')[0].split(' requires')[0]
    return {n: re.sub(r"'\w+ ", '', t).strip() for n, t in re.findall(rf"(\w+): ({TYPE})(?=,|\)|$)", inside)}


def rattle_parts(text):
    """The code of a Rattle file: constants, and the bodies of functions that promise something, by a clause or by a ghost member of their impl; no comment, `use`, signature or clause."""
    head, depth, clause, member, record = None, 0, False, False, False
    for number, at, line in lines_of(text):
        code = line.split('//')[0]
        bare = code.strip()
        if depth:
            depth += code.count('{') - code.count('}')
            if depth and bare and (clause or member) and not CLAUSE.match(bare):
                yield Part(at, number, 0, code, parameters(head), statement=True, field=record and re.fullmatch(r'\w+,', bare) is not None)
            record = re.search(r'\b[A-Z]\w* \{$', bare) is not None or (record and bare[:1] not in '])}' and bare[-1:] not in '[({')
            head = head if depth else None
        elif head is None and re.match(r'(pub )?const ', bare):
            yield Part(at + code.index('='), number, code.index('='), code[code.index('='):], {})
        elif head is None and not FUNCTION.match(bare):
            member = line != '}' and (member or MEMBER.match(bare) is not None)
        else:
            clause = head is not None and (clause or CLAUSE.match(bare) is not None)
            head = head if clause else f'{head or ""} {bare}'
            depth = int(bare == '{' if clause else bare.endswith('{'))
            head = None if bare.endswith((';', '{}')) else head


def signatures(text):
    """Each function of a Rattle file with the types that it takes and gives."""
    flat = re.sub(r'\s+', ' ', re.sub(r'//.*', '', text))
    found = re.findall(r'fn (\w+)(?:<[^>]*>)?\(((?:[^()]|\([^()]*\))*)\)(?: -> ([^{]*?))? (?:requires|ensures|where|\{)', flat)
    return {n: (tuple(parameters('(' + p).values()), r.strip()) for n, p, r in found}


def declared(folder):
    """The records and enums of a crate: fields by record with their types, variants by enum with what they hold, constants by type."""
    fields, variants, constants = defaultdict(dict), defaultdict(dict), defaultdict(list)
    for path in sorted(Path(folder).glob('src/*.rt')):
        text = re.sub(r'//.*', '', path.read_text())
        for name, body in re.findall(r'struct (\w+)(?:<[^>]*>)? \{(.*?)\n\}', text, re.S):
            fields[name].update(re.findall(r'(\w+): (.+?),?\s*$', body, re.M))
        for name, body in re.findall(r'enum (\w+)(?:<[^>]*>)? \{(.*?)\n\}', text, re.S):
            variants[name].update(re.findall(r'^    (\w+)([^,\n]*)', body, re.M))
        for name, body in re.findall(r'impl(?:<[^>]*>)? (\w+)(?:<[^>]*>)? \{(.*?)\n\}', text, re.S):
            constants[name] += re.findall(r'const (\w+):', body)
    return fields, variants, constants


# ---- antt


def antt_parts(text, types):
    """The right sides of an antt file's definitions, and the facts that its records state."""
    bound = {}
    for number, at, line in lines_of(text):
        code = re.sub(r'(^|\s)--.*', '', line)
        if not code.strip() or re.match(r'(use|pub mod|pub data|pub record|abbrev|unfoldable|unfolding)\b', code):
            continue
        fact = re.match(r'\s+pub \S+ : ', code)
        side = re.search(r' = | =$', code)
        if fact and re.search('[≤<≡≢]', code):
            yield Part(at + fact.end(), number, fact.end(), code[fact.end():], {})
        elif side:
            bound = bound_by(code[:side.start()], types) if not line.startswith('  ') else bound
            yield Part(at + side.end(), number, side.end(), code[side.end():], bound)
        elif line.startswith('    ') and ' : ' not in code:
            yield Part(at, number, 0, code, bound)


def bound_by(left, types):
    """The variables of a definition's left side, with their types: by its signature, and under a constructor by that one's."""
    found = {}
    words = re.findall(r'\([^()]*\)|\S+', left)
    for word, kind in zip(words[1:], types.get(words[0], [])):
        inner = word.strip('()').split()
        if len(inner) == 1 and re.fullmatch(r'[a-z]\w*', inner[0]):
            found[inner[0]] = kind
        for name, under in zip(inner[1:], types.get(inner[0], [])):
            found[name] = under
    return found


def typed(texts):
    """The types that each definition and constructor of some antt files takes; the last one is what it gives."""
    types = {}
    for text in texts:
        for names, kind in re.findall(r'^(?:(?:abbrev|unfoldable) pub| ) ((?!pub )\S+(?: [a-z]\w*)*) : (.*→.*)$', text, re.M):
            kind = re.sub(r'\{[^}]*\} → ', '', kind)
            for name in names.split():
                types[name] = split_arrows(kind)
    return types


def split_arrows(kind):
    """A type at its outermost arrows."""
    parts, depth, word = [], 0, ''
    for c in kind:
        depth += (c == '(') - (c == ')')
        if c == '→' and not depth:
            parts, word = parts + [word.strip()], ''
        else:
            word += c
    return parts + [word.strip()]


def record_fields(text):
    """The fields of the records that an antt file declares, with their types."""
    found = {}
    for name, body in re.findall(r'^pub record (\w+).*?where\n((?:  .*\n)+)', text, re.M):
        found[name] = dict(re.findall(r'pub (\w+) : (.*)', body))
    return found


def imported(text):
    """The names that an antt file's `use` lines bring, and each list of an enum's variants among them."""
    names, groups = set(), []
    for module, listed in re.findall(r'^use (\S+)\.\{(.*)\}', text, re.M):
        here = [n.split(' as ')[-1].strip() for n in listed.split(',')]
        names.update(here)
        if module.endswith('TheVariants'):
            groups.append(here)
    return names, groups
