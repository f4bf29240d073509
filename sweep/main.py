"""The command line of the sweep: which edits, in which order, tried and written down."""
import argparse
import re
import signal
import sys
import time
from collections import Counter
from itertools import takewhile
from pathlib import Path
from types import SimpleNamespace

import edits
import texts
import tries

RESULTS = Path('target/sweep/results.tsv')
SEED = 20261115


# ---- the edits


def source_edits(crate):
    """All edits of a crate's code, file by file."""
    fields, variants, constants = {}, {}, {}
    functions = {}
    for c in (*tries.below(crate), crate):
        f, v, k = texts.declared(f'crates/{c}')
        fields, variants, constants = fields | f, variants | v, constants | k
        for path in Path(f'crates/{c}/src').glob('*.rt'):
            name = c if path.stem == 'lib' else path.stem
            functions.setdefault(name if c != crate else path.stem, {}).update(texts.signatures(path.read_text()))
    files = []
    for path in sorted(Path(f'crates/{crate}/src').glob('*.rt')):
        text = path.read_text()
        here = functions | {'': texts.signatures(text)}
        tables = SimpleNamespace(fields=fields, variants=variants, constants=constants, functions=here)
        files.append(edits.edits_of(path, text, texts.rattle_parts(text), edits.rattle_rules, tables, f'{crate}/{path.stem}'))
    return files


def area_of(crate):
    """How the ids of a crate's definitions begin."""
    return 'specs' if crate == 'machine' else f'{crate}.specs'


def edits_in(area):
    """All edits of an area: a crate's code, or its definitions."""
    if area == 'specs' or area.endswith('.specs'):
        return definition_edits(area.removesuffix('specs').rstrip('.') or 'machine')
    return source_edits(area)


def trying_of(area):
    """How an edit of an area is tried."""
    if area == 'specs' or area.endswith('.specs'):
        return lambda e: tries.try_definition(e, area.removesuffix('specs').rstrip('.') or 'machine')
    return lambda e: tries.try_source(e, area)


def definition_edits(crate):
    """All edits of a crate's definitions, file by file."""
    paths = [p for p in sorted(Path(f'crates/{crate}/specs').glob('*.antt')) if p.stem != 'Lib']
    whole = [p.read_text() for p in paths]
    types = texts.typed(whole)
    fields = {}
    for c in (*tries.below(crate), crate):
        fields |= texts.declared(f'crates/{c}')[0]
    for text in whole:
        fields |= texts.record_fields(text)
    files = []
    for path, text in zip(paths, whole):
        names, groups = texts.imported(text)
        scope = {n: ' → '.join(t) for n, t in types.items() if n in names or f'\n  {n} ' in text or f'pub {n} :' in text}
        tables = SimpleNamespace(fields=fields, groups=groups, scope=scope)
        files.append(edits.edits_of(path, text, texts.antt_parts(text, types), edits.antt_rules, tables, f'{area_of(crate)}/{path.stem}'))
    return files


def picked(files, options):
    """The edits to try, in their order."""
    some = [edits.chosen(f, f'{options.seed}/{f[0].path}', options.most) for f in files if f and options.only in ('', f[0].path.stem)]
    order = edits.in_turn(some)
    return list(enumerate(order, 1))[options.start - 1:options.to]


# ---- results


def written():
    """What was tried before: verdict by id and words."""
    if not RESULTS.exists():
        return {}
    rows = [line.rstrip('\n').split('\t') for line in RESULTS.open()]
    return {(r[0], r[4], r[5]): r for r in rows}


def write_down(edit, verdict, seconds):
    """A row of the results: id, verdict, seconds, who refused, the edit, its line."""
    RESULTS.parent.mkdir(parents=True, exist_ok=True)
    row = [edit.id, verdict.word, f'{seconds:.1f}', verdict.where, edit.told(), edit.context]
    with RESULTS.open('a') as out:
        out.write('\t'.join(field.replace('\t', ' ').replace('\n', ' ') for field in row) + '\n')


def batch(todo, trying, again):
    """Tries edits one after the other, and says how far it is."""
    before = {} if again else written()
    left = [(k, e) for k, e in todo if (e.id, e.told(), e.context) not in before]
    print(f'{len(todo)} edits, {len(todo) - len(left)} tried before', flush=True)
    counts, begun = Counter(), time.time()
    for i, (k, edit) in enumerate(left, 1):
        at = time.time()
        verdict = trying(edit)
        write_down(edit, verdict, time.time() - at)
        counts[verdict.word] += 1
        rest = (time.time() - begun) / i * (len(left) - i) / 60
        said = ', '.join(f'{n} {w}' for w, n in sorted(counts.items()))
        print(f'{i} of {len(left)} ({said}; {rest:.0f} min left)  no. {k} {edit.id} {edit.told()}: {verdict.word} {verdict.where[:110]}', flush=True)


# ---- commands


def files_of(options):
    """The edits that the command line names."""
    return edits_in(area_of(options.crate) if options.what == 'specs' else options.crate)


def sweep(options):
    """A batch of tries."""
    tries.prepare()
    if not tries.unedited(options.crate):
        sys.exit(2)
    area = area_of(options.crate) if options.what == 'specs' else options.crate
    batch(picked(files_of(options), options), trying_of(area), options.again)


def one(options):
    """A single try, with what the prover says."""
    area = options.id.split('/')[0]
    found = [e for f in edits_in(area) for e in f if e.id == options.id]
    if not found:
        refuse(f'there is no edit {options.id}')
    edit = found[0]
    print(f'{edit.path}:{edit.line}: {edit.context}\n{edit.told()}', flush=True)
    tries.prepare()
    verdict = trying_of(area)(edit)
    errors = [line[:600] for line in verdict.output.split('\n') if re.search(r'error|: not proved$|: no proof', line) and 'was not admitted' not in line]
    print('\n'.join(errors[:20] + [f'{verdict.word} {verdict.where}']))


def retry():
    """What survived, or was refused by contracts alone, tried again: after a promise was tightened."""
    ids = {r[0] for r in written().values() if r[1] in ('survived', 'contracts only')}
    areas = sorted({i.split('/')[0] for i in ids})
    tries.prepare()
    for area in areas:
        todo = list(enumerate([e for f in edits_in(area) for e in f if e.id in ids], 1))
        batch(todo, trying_of(area), True)


def report():
    """Counts by area and verdict, then each survivor and each edit that only contracts refuse."""
    rows = list(written().values())
    counts = Counter((r[0].split('/')[0], r[1]) for r in rows)
    for (area, word), n in sorted(counts.items()):
        print(f'{area}: {n} {word}')
    for word in ('survived', 'contracts only', 'no verdict'):
        for r in (r for r in rows if r[1] == word):
            print(f'{word}: {r[0]} {r[4]}\n    {r[5]}\n    {r[3]}')


def refuse(why):
    """A command line that is not known: what is wrong, and the comment at the top of sweep/run, which is its usage; nothing is tried."""
    about = takewhile(lambda line: line.startswith('#'), Path('sweep/run').read_text().split('\n')[1:])
    print(f'sweep/run: {why}', *(line[2:] for line in about), sep='\n', file=sys.stderr)
    sys.exit(2)


def known(options, words):
    """Refuses words that say nothing, and crates that there are none of."""
    most = {'src': 2, 'specs': 2, 'one': 2, 'retry': 1, 'report': 1}.get(options.what)
    if most is None or (options.list and options.what not in ('src', 'specs')):
        refuse(f'what is to be {"listed" if options.list else "tried"}: "{options.what}"?')
    if len(words) > most:
        refuse(f'"{words[most]}" is a word too many')
    if options.what in ('src', 'one') and not options.crate:
        refuse(f'{options.what} of what?')
    if options.what == 'one' and not re.fullmatch(r'[^/]+/[^:]+:\d+:\d+:\d+', options.id):
        refuse(f'"{options.id}" is no edit: FILE:LINE:COLUMN:NUMBER')
    area = options.crate if options.what != 'one' else options.id.split('/')[0].removesuffix('specs').rstrip('.') or 'machine'
    if options.what in ('src', 'specs', 'one') and not Path(f'crates/{area}/{"specs" if options.what == "specs" else "src"}').is_dir():
        refuse(f'there is no crate {area}{" with definitions" if options.what == "specs" else ""}')
    if options.only and (options.what not in ('src', 'specs') or not list(Path(f'crates/{area}/{options.what}').glob(f'{options.only}.*'))):
        refuse(f'there is no file {options.only} among what is tried')


def arguments():
    """The command line."""
    parser = argparse.ArgumentParser(prog='sweep/run', add_help=False, allow_abbrev=False)
    parser.error = refuse
    parser.add_argument('words', nargs='*', help='src CRATE | specs [CRATE] | one ID | retry | list .. | report')
    parser.add_argument('--from', dest='start', type=int, default=1)
    parser.add_argument('--to', type=int, default=None)
    parser.add_argument('--seed', type=int, default=SEED)
    parser.add_argument('--most', type=int, default=40, help='edits a file')
    parser.add_argument('--only', default='', help='edits of this file alone')
    parser.add_argument('--again', action='store_true')
    options = parser.parse_args()
    options.list = options.words[:1] == ['list']
    words = options.words[1:] if options.list else options.words
    options.what = words[0] if words else ''
    options.crate = options.id = words[1] if len(words) > 1 else ''
    if options.what == 'specs':
        options.crate = options.crate or 'machine'
    known(options, words)
    return options


def main():
    """Does what the command line says."""
    signal.signal(signal.SIGPIPE, signal.SIG_DFL)  # a reader such as head may leave early
    options = arguments()
    if options.what == 'one':
        one(options)
    elif options.what in ('report', 'retry'):
        {'report': report, 'retry': retry}[options.what]()
    elif options.list:
        for k, e in picked(files_of(options), options):
            print(f'{k} {e.id} {e.told()} in: {e.context}')
    else:
        sweep(options)


main()
