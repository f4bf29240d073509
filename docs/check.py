"""docs/check: what the pages cite, looked up in the tree.

Names: in PROMISES.md, DECISIONS.md, CHANGING.md, the pages of docs/changes and both READMEs each word in backticks is a definition, theorem, function, type, field, crate, must-fail edit, operation
of a tape's text, script or path of the tree, or stands in EXCEPTIONS. `a::b` is looked up part by part, `a_..` as the start of a name, `_b` as the end of one, and
a word of capitals (`NAME-determined`) stands for anything, and what has no letter and no digit (`-`) is passed over. Where a page says in which crate or file a name stands, it must stand there:

    machine's `step`      fields' must-fail `map_from_bit_1`      graphics_visits: `stores_nothing`      an edit, or a definition, of that crate
    must-fail `read_of_0`, `write_of_0`                           edits of any crate
    Calls: `vram_plan`, `unmasked`     Claims `InWindow`          definitions of a file Calls.antt, Claims.antt

A column of a table that is headed Old or Was has names that went, and is passed over.
Paths: in every page each word that starts with a folder of the tree, and each name of a file by its ending, with or without backticks; a word of capitals stands for any.
Numbers: COUNTS has, for each, the sentence of the page and how it is counted. COST.md's two tables agree, README.md's drawing has every crate, below those that it uses, PROMISES.md's table of
functions with a `requires` has every one that another crate can name, a public trait's methods too, each in a module `inner`, and its table of the harness every crate whose public functions have
no contract. No two definitions of specs/ share a name, and no module has the name of a crate.
"""
import glob
import os
import re
import sys

NAMED = ["README.md", "host/README.md", "docs/PROMISES.md", "docs/DECISIONS.md", "docs/CHANGING.md", *sorted(glob.glob("docs/changes/*.md"))]
PAGES = NAMED + ["docs/COST.md", "docs/DIFFERENCES.md", "docs/SWEEP.md", "oracle/README.md", "sweep/README.md"]
FOLDERS = "crates docs host oracle tape sweep bench scripts tools .ci".split()
ENDINGS = "md antt rt rs c h py txt list lines tape edit out".split()

# Words in backticks that are no names of this tree, each kind with its reason.
EXCEPTIONS = {
    # words of the languages, and of the kit
    "requires", "ensures", "bool", "usize", "&mut", "get_or", "Option", "rt", "types", "Bool", "libc", "os", "errno", "rattle_errno", "let", "extern", "no_mangle", "#[tactic", "#![tactic",
    # programs that scripts build, the fields of a must-fail edit, and an option
    "test", "oracle", "file:", "old:", "new:", "--help", "c", "Result", "Ok", "Err", "None", "?", "as", "println",
    # MartyPC's names for what document 01 leaves out, or gives another shape
    "get_state", "get_stats", "parallel", "foreach_plane", "serialize_buf", "linear_cga_buf", "pixel_buf", "pipeline_buf", "debug_ctr", "c4_flipflop", "plane_len",
    "plane_slice", "update_character_maps", "font_select_enabled", "get_glyph_span", "test_glyph_span", "get_glyph_address", "graphics_", "micellaneous",
}
# Files that pages name and the tree does not have: MartyPC's own, and those that a reader makes.
FILES = {"vram.rs", "sequencer.rs", "graphics_controller.rs", "mod.rs", "my_emulator.c", "my_emulator.rs", "draw.txt", "draw.tape"}

# Modules of the kit's crates: no crate here has such a name.
KIT_MODULES = {"types", "number", "num", "elem", "scan", "c", "path"}

wrong = []


def tell(page, line, text):
    wrong.append(f"{page}:{line}: {text}")


def read(path):
    with open(path, encoding="utf-8", errors="replace") as file:
        return file.read()


def tree():
    """Every file of the tree, without what is built."""
    found = []
    for folder, folders, files in os.walk("."):
        folders[:] = [f for f in folders if os.path.join(folder, f) not in ("./target", "./.git") and not re.fullmatch(r"\./crates/\w+/out", os.path.join(folder, f))]
        found += [os.path.normpath(os.path.join(folder, f)) for f in files]
    return found


# ---- what is defined where

ANTT = re.compile(r"^\s*(?:(?:pub|unfoldable|abbrev)\s+)*(?:(?:data|record)\s+([^\s(){}:]+)|((?:[^\s(){}.:;,=]+\s+)+):(?=\s))", re.M)
RUST = re.compile(r"\b(?:fn|struct|enum|const|mod|type|trait)\s+(\w+)|^\s*(?:pub )?(\w+):\s|^\s*([A-Z]\w*)\s*(?=[,({])|\buse\s+[\w:]+::(\w+)", re.M)
C = re.compile(r"\b(\w*(?:iddesmar|IDDESMAR)\w*)\b|^\s+[\w ]+?\b(\w+)(?:\[\d\])?;", re.M)
CALLS = re.compile(r"^(?:static )?\w[\w *]*?\b(\w+)\(", re.M)
SHELL = re.compile(r"^(\w+)\(\) \{|^def (\w+)|case \"?(\w+)", re.M)
KINDS = {".antt": ANTT, ".rt": RUST, ".rs": RUST, ".h": C, ".c": CALLS, ".py": SHELL, "": SHELL}


def definitions(files):
    """For each name the files that define it."""
    found = {}
    for path in files:
        kind = KINDS.get(os.path.splitext(path)[1])
        if kind is None or not path.startswith(tuple(f + "/" for f in FOLDERS)):
            continue
        text = re.sub(r"^\s*(?:--|//).*$", "", read(path), flags=re.M)
        for match in kind.finditer(text):
            for name in " ".join(group for group in match.groups() if group).split():
                found.setdefault(name, set()).add(path)
        for name in handed_on(text) if path.endswith((".rt", ".rs")) else ():
            found.setdefault(name, set()).add(path)
    return found


def handed_on(text):
    """The names of the lists `use a::{b, c as d}` of a file of Rattle or Rust."""
    return [name.split(" as ")[-1].strip() for listed in re.findall(r"\buse\s+[\w:]+::\{([^{}]*)\}", text) for name in listed.split(",") if name.strip()]


files = tree()
bases = {os.path.basename(path) for path in files}
defined = definitions(files)
uses = {name: used.split() for name, used in re.findall(r"^(\w+)(?: [^:\n]*)?:(.*)$", read("crates.txt"), re.M)}
crates = list(uses)
edits = {}
for path in glob.glob("crates/*/must-fail/*.edit"):
    edits.setdefault(os.path.basename(path)[:-5], set()).add(path.split("/")[1])
modules = {os.path.splitext(os.path.basename(path))[0] for path in files if path.endswith(".antt")}
operations = {word for text in re.findall(r'split\("([a-z -]+)"', read("tape/text-to-tape")) for word in text.split()} | {"bytes"}
names = set(defined) | set(crates) | set(edits) | modules | {"target"}


def exists(path):
    path = re.sub(r"\b[A-Z]{4,}\b(?!\.md)", "*", path.rstrip("/"))
    return bool(glob.glob(path)) if "*" in path else os.path.exists(path)


def known(word):
    """One word, without blanks: is it a name of the tree?"""
    if word in EXCEPTIONS or word in names or word in operations or word in FILES or re.fullmatch(r"[0-9A-Fx.]+", word):
        return True
    if "/" in word:
        return word.startswith(("../", "target/")) or exists(word)
    if word in bases:
        return True
    if "::" in word:
        return all(known(part) for part in word.split("::"))
    if word.endswith(".."):
        return any(name.startswith(word[:-2]) for name in names)
    if word.startswith("_"):
        return any(name.endswith(word) for name in names)
    if re.search(r"[A-Z]{4,}", word):
        pattern = "".join(".+" if re.fullmatch(r"[A-Z]{4,}", part) else re.escape(part) for part in re.split(r"([A-Z]{4,})", word))
        return any(re.fullmatch(pattern, name) for name in names)
    if "·" in word:
        return word.split("·")[-1] in names
    return False


# ---- names

LIST = r"(?:rows? )?`[^`]+`(?:(?:, | and )(?:rows? )?`[^`]+`)*"


def words(text):
    return re.findall(r"`([^`]+)`", text)


def in_crate(page, line, crate, must_fail, listed):
    for name in words(listed):
        if crate in edits.get(name, set()):
            continue
        if must_fail:
            tell(page, line, f"crates/{crate}/must-fail has no {name}.edit")
        elif not any(path.startswith(f"crates/{crate}/") for path in defined.get(name, ())):
            tell(page, line, f"crates/{crate} has no `{name}`, neither a definition nor a must-fail edit")


def in_file(page, line, module, listed):
    for name in words(listed):
        if not any(os.path.basename(path) == module + ".antt" for path in defined.get(name, ())):
            tell(page, line, f"{module}.antt does not define `{name}`")


def check_names(page, line, text):
    for quoted in words(text):
        for at, word in enumerate(quoted.split()):
            word = word.strip(",;()'\"").split("(")[0] or word
            if not re.search(r"\w", word):
                continue
            if at > 0 and (word.startswith("-") or word.isupper() or "/" not in word):
                continue
            if not known(word) and not known(word.lstrip("&")):
                tell(page, line, f"`{word}` is not in the tree")
    for crate, must_fail, listed in re.findall(rf"(?:\b(?=\w+')|(?<=[|;] )(?=\w+:))(\w+)(?:'s?|:) (must-fail )?({LIST})", text):
        if crate in crates:
            in_crate(page, line, crate, must_fail, listed)
        elif all(name in edits for name in words(listed)):
            tell(page, line, f"{crate} is said to have {listed}, and is no crate")
    for owner in re.findall(r"(?<![\w`/.-])([a-z]+(?:_[a-z0-9]+)+)'", text):
        if owner not in names:
            tell(page, line, f"{owner} is said to have something, and is no crate and no name of the tree")
    for listed in re.findall(rf"(?<!' )(?<!'s )must-fail ({LIST})", text):
        for name in words(listed):
            if not name.endswith("..") and name not in edits:
                tell(page, line, f"no crate has a must-fail edit {name}.edit")
    for module, listed in re.findall(rf"\b([A-Z]\w+):? ({LIST})", text):
        if module in modules:
            in_file(page, line, module, listed)


def without_old(rows, text):
    """A row of a table without the columns headed Old or Was; `rows` are the rows of the table so far."""
    if not text.startswith("|"):
        rows.clear()
        return text
    rows.append(text)
    head = [cell.strip().lower() for cell in rows[0].split("|")]
    return "|".join(cell for at, cell in enumerate(text.split("|")) if at >= len(head) or head[at] not in ("old", "was"))


# ---- paths

INSIDE = re.compile(r"(?<![\w./-])((?:\w+/)?(?:src|specs|proofs|must-fail)/[\w./*-]+\.\w+)")
STARTS = re.compile(r"(?<![\w./-])((?:%s)/[\w./*<>·-]+)" % "|".join(re.escape(f) for f in FOLDERS))
ENDS = re.compile(r"(?<![\w./*-])([\w-]+\.(?:%s))\b(?![\w/.-]*/)" % "|".join(ENDINGS))


def check_paths(page, line, text):
    for path in STARTS.findall(text):
        path = path.rstrip(".")
        if "rowNN" not in path and not exists(path) and not exists(os.path.join(os.path.dirname(page), path)):
            tell(page, line, f"no file or folder {path}")
    for path in INSIDE.findall(text):
        inside = path.startswith(("src/", "specs/", "proofs/", "must-fail/"))
        if not exists(path) and len(glob.glob(f"crates/*/{path}" if inside else f"crates/{path}")) <= inside:
            tell(page, line, f"no file {path}, by its path from the top, from crates/ or, for a file of several crates, from a crate")
    for name in ENDS.findall(text):
        if name not in bases and name not in FILES and not name.startswith("NAME."):
            tell(page, line, f"no file is called {name}")


# ---- numbers


def calls(path):
    """The lines of a list that are calls."""
    return sum(1 for line in read(path).splitlines() if re.match(r"\s*\d", line))


def cases(part):
    """The calls of a part of the list of cases."""
    after = read("crates/replay/stdin").split(f"# ---- {part}\n")[1].split("# ---- ")[0]
    return sum(1 for line in after.splitlines() if re.match(r"\d", line))


def column(path, number, test):
    return sum(1 for line in read(path).splitlines() if test(line.split()[number]))


def exported():
    return len(set(re.findall(r"\b(iddesmar_(?:gc|seq|vram)_\w+)\(", read("host/iddesmar.h"))))


def starts():
    return len(re.findall(r"\biddesmar_\w+_new\(void\)", read("host/iddesmar.h")))


def all_edits():
    return len(glob.glob("crates/*/must-fail/*.edit"))


def needed(name):
    """A crate and all that it uses, the kit's own crates left out."""
    return {name}.union(*map(needed, uses[name])) if name in uses else set()


COUNTS = [
    ("README.md", r"There are (\d+) crates to prove", lambda: len(crates)),
    ("README.md", r"crates to prove and (\d+) wrong edits to try", all_edits),
    ("README.md", r'told as "crate \d+ of (\d+)"', lambda: len(needed("tape"))),
    ("README.md", r"before the (\d+) lines of proof", lambda: len(read("crates/machine/proofs/Isolation.antt").splitlines())),
    ("README.md", r"on the (\d+) bytes of that tape", lambda: os.path.getsize("tape/examples/document-01.tape")),
    ("host/README.md", r"Each of the (\d+) functions", exported),
    ("docs/PROMISES.md", r"oracle/fixed\.lines: ([\d,]+) calls", lambda: calls("oracle/fixed.list")),
    ("docs/PROMISES.md", r"the (\d+) calls on records of numbers", lambda: exported() - starts()),
    ("docs/DECISIONS.md", r"\d s for each of (\d+)\)", lambda: len(glob.glob("crates/machine/must-fail/*.edit"))),
    ("docs/CHANGING.md", r"the (\d+) wrong edits of all crates", all_edits),
    ("oracle/README.md", r"`oracle generate 5 4000`: ([\d,]+) calls", lambda: calls("oracle/fixed.list")),
    ("oracle/README.md", r"calls, (\d+) of them digests", lambda: column("oracle/fixed.lines", 1, lambda x: x == "0")),
    ("oracle/README.md", r"not ours; ([\d,]+) are refusals", lambda: column("oracle/fixed.lines", 2, lambda x: x != "0")),
    ("oracle/README.md", r"([\d,]+) calls for vram", lambda: cases("vram")),
    ("oracle/README.md", r"([\d,]+) for sequencer and", lambda: cases("sequencer")),
    ("oracle/README.md", r"([\d,]+) for graphics_controller", lambda: cases("graphics_controller")),
    ("oracle/README.md", r"([\d,]+) lines about lines that are no calls", lambda: cases("lines that are no calls")),
    ("oracle/README.md", r"it gives the Rust's ([\d,]+) lines", lambda: len(read("oracle/fixed.lines").splitlines())),
]


def line_of(text, place):
    return text.count("\n", 0, place) + 1


def check_counts(short_run):
    counts = list(COUNTS)
    if short_run:
        counts.append(("docs/PROMISES.md", r"`oracle/run --short` \(([\d,]+) calls compared\)", lambda: compared(short_run)))
    for page, sentence, count in counts:
        text = read(page)
        match = re.search(sentence, text)
        if not match:
            tell(page, 1, f"no sentence has the number that docs/check.py counts by /{sentence}/")
            continue
        said, is_now = int(match[1].replace(",", "")), count()
        if said != is_now:
            tell(page, line_of(text, match.start()), f"says {said:,} where {is_now:,} are counted: {match[0]}")


def compared(short_run):
    """The calls that `oracle/run --short` compared; where it was skipped, what the page says stands."""
    text = read(short_run)
    match = re.search(r"(\d+) calls compared, whole states", text)
    if match:
        return int(match[1])
    return int(re.search(r"--short` \(([\d,]+) calls", read("docs/PROMISES.md"))[1].replace(",", ""))


def check_cost():
    """What COST.md says was reached is what its table has."""
    text = read("docs/COST.md")
    table, rest = text.split("## Beside the aims")
    aims = rest.split("\n## ")[0]
    ratios = {row[0]: row[3] for row in (re.split(r" *\| *", line.strip("| ")) for line in table.splitlines() if line.startswith("|")) if len(row) > 3}
    for name, reached in re.findall(r"^\| ([^|]+?) \| [^|]+ \| ([\d.]+(?: to [\d.]+)?) \|", aims, re.M):
        modes = re.match(r"mode ([\d, ]+) write$", name)
        rows = [f"mode {mode} write" for mode in modes[1].split(", ")] if modes else [name]
        of_rows = sorted({ratios.get(row, "nothing") for row in rows})
        is_now = " to ".join([of_rows[0], of_rows[-1]][: len(of_rows)])
        if reached != is_now:
            tell("docs/COST.md", line_of(text, text.index(f"| {name} |", len(table))), f"{name}: {reached} reached, where the table has {is_now}")


# a function's name, where a `requires` follows its parameters and what it gives
ASKS = r"fn (\w+)[^{;]*?\)(?: -> [^\n]*)?\n\s*requires"


def asking():
    """The functions with a `requires` that other crates can name, as crate::module::name, and the methods of public traits, as crate::module::Trait::name."""
    found = set()
    for path in glob.glob("crates/*/src/*.rt"):
        crate, module = path.split("/")[1], os.path.basename(path)[:-3]
        library = read(f"crates/{crate}/src/lib.rt") if os.path.exists(f"crates/{crate}/src/lib.rt") else ""
        handed = " ".join(re.findall(rf"pub use {module}::(\{{[^{{}}]*\}}|\w+)", library))
        asks = [(name, name) for name in re.findall(rf"^ *pub {ASKS}", read(path), re.M)]
        for trait, body in re.findall(r"^pub trait (\w+)[^{]*\{\n(.*?)^\}", read(path), re.M | re.S):
            asks += [(trait, f"{trait}::{name}") for name in re.findall(rf"^ *{ASKS}", body, re.M)]
        whole = module == "lib" or f"pub mod {module};" in library
        found |= {f"{crate}::{module}::{name}" for item, name in asks if whole or item in re.findall(r"\w+", handed)}
    return found


def check_requires():
    """PROMISES.md's table of functions with a `requires` has each of them, and no other; they stand in a module `inner`."""
    text = read("docs/PROMISES.md")
    head = "## Functions with a `requires`"
    listed = set()
    for cell in re.findall(r"^\| (`[^|]+) \|", text.split(head)[1].split("\n## ")[0], re.M):
        first, *others = words(cell)
        listed |= {first} | {first.rsplit("::", 1)[0] + "::" + name for name in others}
    for name in sorted(listed ^ asking()):
        why = "is listed, and no public function of that name has a `requires`" if name in listed else "has a `requires` and is not listed"
        tell("docs/PROMISES.md", line_of(text, text.index(head)), f"{name} {why}")
    for name in sorted(name for name in asking() if name.split("::")[1] != "inner"):
        tell("docs/PROMISES.md", line_of(text, text.index(head)), f"{name} has a `requires` and stands outside a module `inner`")


FUNCTION = re.compile(r"^ *pub (?:extern \"C\" )?fn (\w+)(.*?)\{$", re.M | re.S)


def silent():
    """The crates with public functions that have no `ensures`."""
    found = set()
    for path in glob.glob("crates/*/src/**/*.rt", recursive=True):
        if any(not re.search(r"\bensures\b", head) for _, head in FUNCTION.findall(read(path))):
            found.add(path.split("/")[1])
    return found


def check_harness():
    """PROMISES.md's table of the harness has each crate whose public functions have no contract, and no other."""
    text = read("docs/PROMISES.md")
    head = "## A harness, without contracts"
    listed = set(re.findall(r"`(\w+)`", " ".join(re.findall(r"^\| (`[^|]+) \|", text.split(head)[1].split("\n## ")[0], re.M))))
    for crate in sorted(listed ^ silent()):
        why = "has a contract for each public function" if crate in listed else "has a public function without `ensures`"
        tell("docs/PROMISES.md", line_of(text, text.index(head)), f"the crate {crate} {why}")


def check_twice():
    """One meaning for a name: no definition of specs/ has the name of another."""
    for name, paths in sorted(defined.items()):
        places = sorted(path for path in paths if re.match(r"crates/\w+/specs/.*\.antt$", path) and name in public(path))
        if len(places) > 1:
            tell(places[1], 1, f"defines `{name}`, and so does {places[0]}")


def public(path):
    """The public definitions of a file of specs/, fields and constructors left out."""
    return set(re.findall(r"^(?:unfoldable |abbrev )?pub (?:data |record )?([^\s(){}:]+)", read(path), re.M))


def check_crates():
    """Every crate has a line in README's drawing, below those that it uses."""
    text = read("README.md")
    start = text.index("## The crates")
    drawn = re.findall(r"^    [ |+-]*(\w+)", text[start:].split("\n## ")[0], re.M)
    for crate in sorted(set(crates) ^ set(drawn)):
        tell("README.md", line_of(text, start), f"the crate {crate} is " + ("not in the drawing" if crate in crates else "drawn, and is not in crates.txt"))
    for at, crate in enumerate(drawn):
        for used in sorted(set(uses.get(crate, [])) & set(drawn[at:])):
            tell("README.md", line_of(text, start), f"the crate {crate} uses {used}, which is drawn below it")


def check_modules():
    """No module has the name of a crate, the kit's own included on both sides: `rt try` refuses a program that reaches both."""
    taken = set(crates).union(*uses.values())
    for crate in sorted(KIT_MODULES & set(crates)):
        tell("crates.txt", 1, f"the crate {crate} has the name of a module of the kit's")
    for path in sorted(files):
        if not re.match(r"crates/\w+/src/.*\.rt$", path):
            continue
        for match in re.finditer(r"^[ \t]*(?:pub )?mod (\w+)\s*[;{]", read(path), re.M):
            if match[1] in taken:
                tell(path, line_of(read(path), match.start()), f"the module {match[1]} has the name of a crate")


def main():
    for page in PAGES:
        inside, rows = False, []
        for number, text in enumerate(read(page).splitlines(), 1):
            if text.startswith("```"):
                inside = not inside
            text = without_old(rows, text)
            check_paths(page, number, text)
            if page in NAMED and not inside and not text.startswith("    "):
                check_names(page, number, text)
    check_counts(sys.argv[1])
    check_cost()
    check_requires()
    check_harness()
    check_twice()
    check_crates()
    check_modules()
    for text in wrong:
        print(text)
    print(f"pages: {len(PAGES)} held to the tree, " + (f"{len(wrong)} wrong" if wrong else f"{len(names)} names known, {len(COUNTS)} numbers counted"))
    return 1 if wrong else 0


sys.exit(main())
