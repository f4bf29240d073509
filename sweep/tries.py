"""A copy of the repository in which edits are tried, and what the prover says of each."""
import hashlib
import os
import re
import shutil
import subprocess
import tempfile
import time
from pathlib import Path

# Among the temporary files: `rt ci` takes no source outside a crate's folder, so none stands under target/.
WORK = Path(tempfile.gettempdir()) / f'iddesmar-sweep-{hashlib.sha256(os.getcwd().encode()).hexdigest()[:12]}'
PARTS = ('src', 'specs', 'proofs')
SECONDS = 900


class Verdict:
    """What became of an edit: a word, and who refused it."""

    def __init__(self, word, where='', output=''):
        self.word, self.where, self.output = word, where, output


def prepare():
    """The copy, whose sources are copied anew; what its checks kept stays, and the first ones begin with what rt finds in this checkout."""
    for crate in listed():
        for part in PARTS:
            here, there = Path('crates') / crate / part, WORK / 'crates' / crate / part
            shutil.rmtree(there, ignore_errors=True)
            if here.exists():
                shutil.copytree(here, there)
    for name in ('crates.txt', 'HANDLES'):
        if Path(name).exists():
            shutil.copy(name, WORK / name)


def listed():
    """The crates of crates.txt, in its order."""
    return re.findall(r'^(\w+)(?: [^:\n]*)?:', Path('crates.txt').read_text(), re.M)


def run(crate, words):
    """A command in a crate's folder of the copy, at a low priority: its status and what it printed."""
    try:
        done = subprocess.run(['nice', '-n', '10', *words], cwd=WORK / 'crates' / crate, capture_output=True, text=True, timeout=SECONDS)
    except subprocess.TimeoutExpired:
        return 3, f'no end after {SECONDS} seconds'
    return done.returncode, done.stdout + done.stderr


def dev(crate):
    """One crate over what its earlier checks kept."""
    return run(crate, ['rt', 'check'])


def uses(crate):
    """The crates that a crate names; none where it is the kit's own."""
    row = re.search(rf'^{crate}(?: [^:\n]*)?:(.*)$', Path('crates.txt').read_text(), re.M)
    return row.group(1).split() if row else []


def below(crate):
    """The crates of the repository under a crate, in the order of crates.txt."""
    found, ahead = set(), [crate]
    while ahead:
        fresh = set(uses(ahead.pop())) - found
        found |= fresh
        ahead += fresh
    return [name for name in listed() if name in found]


def whole(top):
    """A crate with every crate below it as source, in one run over one incremental folder: no library is built."""
    guide = subprocess.run(['rt', 'doc'], capture_output=True, text=True, check=True).stdout.strip()
    kit = Path(guide).parent
    folder = WORK / 'whole' / top
    folder.mkdir(parents=True, exist_ok=True)
    words = [str(kit / 'bin/rattle'), 'check', '--crate-name', top, 'src/lib.rt', '--links', f'{top}=', '--jobs', '1']
    for name in ('core', 'std'):
        words += ['--extern', f'{name}={kit}/rlibs/{name}.rlib']
    for crate in below(top):
        words += ['--lib', f'{crate}:{",".join(["core", "std", *uses(crate)])}=../{crate}/src/lib.rt']
    words += ['-L', f'dependency={kit}/rlibs', '--antt-project', str(kit / 'rattle/logic/antt-project.json')]
    return run(top, words + ['--logic-built', str(kit / 'logic_built'), '--incremental', str(folder)])


# how a line that names a place begins: the path is the crate's own, or, of a library that is passed as source, one through its folder
PLACE = r'^(?:\S*/)?'


def read(status, output):
    """The verdict that a run's output tells."""
    if status == 0:
        return Verdict('survived', '', output)
    if re.search(PLACE + r'src/[^ ]*: error\[', output, re.M) or re.search(PLACE + r'specs/[^ ]*: error: (?!.*was not admitted)', output, re.M):
        return Verdict('no program', first_error(output), output)
    if status == 1 and re.search(r': not proved|: no proof|^logic=not-proved', output, re.M):
        return Verdict('refused', refusers(output), output)
    return Verdict('no verdict', f'exit {status}: {first_error(output)}', output)


def first_error(output):
    """The first error's place and words, short."""
    m = re.search(r'^((?:\S*/)?(?:src|specs|proofs)/\S+?): (error\S* .*)', output, re.M)
    return f'{m.group(1)} {m.group(2)[:160]}' if m else output.strip()[-160:].replace('\n', ' ')


def refusers(output):
    """The theorems and functions that do not hold, those that only call another one left out."""
    laws = re.findall(PLACE + r'proofs/([\w/+]+)\.antt:\d+:\d+: error: `([^`]+)`: (?!.*was not admitted)', output, re.M)
    functions = re.findall(r'^(?:fn|impl|struct|enum) (\S+): (?:not proved$|no proof)', output, re.M)
    named = [f'{m}:{n}' for m, n in laws] + functions
    kept = list(dict.fromkeys(named))
    return ' '.join(kept[:6]) + (f' and {len(kept) - 6} more' if len(kept) > 6 else '') if kept else first_error(output)


def try_source(edit, crate):
    """An edit of a crate's code, held to that crate's contracts; one of the types' constants to those of the crates above, which use them."""
    verdict = with_edit(edit, (lambda: definition_verdict(crate)) if crate == 'machine_types' else lambda: read(*dev(crate)))
    verdict.word = 'refused' if verdict.word == 'contracts only' else verdict.word
    return verdict


def try_definition(edit, crate):
    """An edit of a crate's definitions: held to its own theorems, then to the contracts of the code, then to the tape's."""
    return with_edit(edit, lambda: definition_verdict(crate))


def definition_verdict(crate):
    """What the crate says; where that survives, those above it."""
    verdict = read(*dev(crate))
    for top in (t for t in ('graphics_controller', 'tape_reader') if crate in below(t)):
        if verdict.word != 'survived':
            return verdict
        verdict = read(*whole(top))
        if verdict.word == 'refused':
            verdict.word = 'contracts only'
    return verdict


def with_edit(edit, trying):
    """A try with the edit made in the copy, which is then put back."""
    path = WORK / edit.path
    text = path.read_text()
    path.write_text(edit.apply(text))
    try:
        return trying()
    finally:
        path.write_text(text)


def unedited(crate):
    """Whether the copy as it stands is proved: nothing is told by a try where it is not."""
    begun = time.time()
    status, output = dev(crate)
    print(f'{crate} as it stands: {"proved" if status == 0 else "NOT PROVED"}, {time.time() - begun:.0f} s', flush=True)
    if status:
        print(output[-2000:])
    return status == 0
