"""docs/run-pages: the pieces of code in README.md and host/README.md, each held to what it shows.

A piece is a run of indented lines, or what stands between two fences. PIECES lists them in the order of the pages: the page, how the first line starts, and
what is done with the piece. A piece of commands is run line by line; COMMANDS has those that are not run as they stand, with the reason."""
import glob
import os
import re
import shutil
import subprocess
import sys
import tempfile

PAGES = ["README.md", "host/README.md"]
OUT = "target/pages"
LIBRARY = "target/staticlib/libhost.a"
# what is wrong; what is missing on this machine, which with CI=true is wrong too; what is only said
wrong, missing, notes = [], [], []


class Piece:
    def __init__(self, page, line, lines):
        self.page, self.line, self.lines = page, line, lines
        self.text = "\n".join(lines)

    def fails(self, why):
        wrong.append(f"{self.page}:{self.line}: {why}")


def pieces(page):
    """The pieces of a page, in their order."""
    found, current, start, fenced = [], [], 0, False
    with open(page, encoding="utf-8") as file:
        lines = file.read().splitlines()
    for number, line in enumerate(lines + [""], 1):
        fence = line.startswith("```")
        if (fenced and not fence) or (not fenced and line.startswith("    ")):
            start = start or number
            current.append(line if fenced else line[4:])
            continue
        if current:
            found.append(Piece(page, start, current))
        current, start, fenced = [], 0, fenced != fence
    return found


def run(command, given=None, at="."):
    """What a command printed, where it failed its errors too, and its exit status; `given` goes to its standard input."""
    done = subprocess.run(command if isinstance(command, list) else ["bash", "-c", command], input=given, capture_output=True, text=True, cwd=at)
    return done.stdout + (done.stderr if done.returncode else ""), done.returncode


def lacks(what):
    if what not in missing:
        missing.append(what)


# ---- commands

# Commands that are not run as they stand here: why.
COMMANDS = {
    ".ci/run": "it is the gate, which runs this",
    "scripts/build host": "host/run runs it, in the gate",
    "host/run": "the gate runs it",
    "oracle/check": "oracle/run ends with it",
    "oracle/run": "the gate runs it with --short; a million calls take minutes",
    "bench/run": "minutes, on demand: docs/COST.md has what it printed",
}


def placed(command):
    """Files that a reader makes stand in target/pages here."""
    return re.sub(r"\b(draw|my_emulator)\.", rf"{OUT}/\1.", command)


def compiled(piece, command, program):
    """A line that compiles a host, where this machine has such a compiler; the program must print what the page shows."""
    compiler = command.split()[0]
    if not shutil.which(compiler):
        lacks(f"no {compiler} was at hand for `{command}`")
        return
    said, status = run(f"{placed(command)} -o {OUT}/{program} && {OUT}/{program}")
    if status or said.strip() != EXPECTED[program]:
        piece.fails(f"`{command}`: status {status}, and it printed {said.strip()!r}, not {EXPECTED[program]!r}")


def cases_again(piece, command):
    """oracle/make-cases in a copy, without a source: the files of the tree are what it makes."""
    shutil.rmtree(f"{OUT}/again", ignore_errors=True)
    shutil.copytree("oracle", f"{OUT}/again/oracle")
    os.makedirs(f"{OUT}/again/crates/replay")
    said, status = run(command, at=f"{OUT}/again")
    same = all(open(f"crates/replay/{name}").read() == open(f"{OUT}/again/crates/replay/{name}").read() for name in ("stdin", "stdout"))
    if status or not same:
        piece.fails(f"{command}: status {status}, " + ("the same files" if same else "and crates/replay/stdin or stdout is not what it makes"))


def shell(piece, listing=False):
    printed = ""
    for line in piece.lines:
        command, _, comment = line.partition(" #")
        command = command.strip()
        if command in COMMANDS:
            how = "not run here: " + COMMANDS[command]
        elif command == "oracle/make-cases":
            how = "run in a copy, whose files must be the tree's"
        elif command.startswith(("cc ", "rustc ")):
            how = "run, on the piece of C or Rust in its frame"
        else:
            how = "run"
        if listing:
            print(f"    {command}: {how}")
        elif command == "oracle/make-cases":
            cases_again(piece, command)
        elif command.startswith("cc "):
            compiled(piece, command, "a.out")
        elif command.startswith("rustc "):
            compiled(piece, command, "my_emulator")
        elif how == "run":
            printed, status = run(placed(command))
            last = re.search(r"its last line: (.*)", comment)
            if status:
                piece.fails(f"`{command}`: status {status}: {printed.strip()}")
            if last and not printed.endswith("\n" + last[1] + "\n"):
                piece.fails(f"`{command}` does not end with the line {last[1]}")
    return printed


# ---- pieces of the languages, in their frames

C_FRAME = """#include "iddesmar.h"
int printf(const char *format, ...);
enum { N = 65536 };
static uint8_t planes[4][N], picture[8 * N];
static iddesmar_memory vram = {{planes[0], planes[1], planes[2], planes[3]}, picture, N};
static iddesmar_gc gc;
static iddesmar_seq seq;
static void next_device_on_the_bus(void) { printf("the next device's "); }
int main(void) {
%s
    printf("%%d %%d %%d %%d, ", a.changed[0], a.changed[1], a.changed[2], a.changed[3]);
    for (int i = 0; i < 8; i++) printf(i ? " %%d" : "%%d", s.pixels[i]);
    printf("\\n");
    return s.number;
}
"""
# the shows of host/README.md, and the end of each line: the answer's number, and the pixels
C_SHOWS = """#include "iddesmar.h"
int printf(const char *format, ...);
enum { N = 65536 };
static uint8_t planes[4][N], picture[8 * N];
static iddesmar_memory vram = {{planes[0], planes[1], planes[2], planes[3]}, picture, N};
static void told(iddesmar_shown s) {
    printf("%%d, and", s.number);
    for (int i = 0; i < 8; i++) printf(" %%d", s.pixels[i]);
    printf("\\n");
}
int main(void) {
    iddesmar_gc gc = iddesmar_gc_new();
    iddesmar_seq seq = iddesmar_seq_new();
%s
%s
    return 0;
}
"""
SHOWN = r"iddesmar_shown (\w+) = .*// (\d, and \d+(?: \d+){7})"
RUST_FRAME = """#![no_main]
#[allow(dead_code)]
mod iddesmar;
#[allow(unused_imports)]
use iddesmar::{GraphicsController, PageSelect, Refusal, Sequencer};
fn drawn() -> Result<[u8; 8], Refusal> {
%s
Ok(pixels)
}
#[no_mangle]
pub extern "C" fn main() -> i32 {
    match drawn() {
        Ok(pixels) => println!("{pixels:?}"),
        Err(refusal) => println!("refusal {}", refusal.number()),
    }
    0
}
"""
EXPECTED = {"a.out": "", "my_emulator": "", "shows": "", "shows_in_rust": ""}


def kit():
    folder = os.path.dirname(run("rt doc")[0].strip())
    return folder, os.path.join(folder, "toolchain")


def linked(piece, given):
    """Links by the kit and runs: what the program printed."""
    folder, tools = kit()
    said, status = run([f"{folder}/bin/rattle-link", "--target", "x86_64-unknown-linux-gnu", "--toolchain", tools, "-o", f"{OUT}/piece", *given])
    if status:
        piece.fails(f"the piece does not link: {said.strip()}")
        return ""
    said, status = run([f"{OUT}/piece"])
    if status:
        piece.fails(f"the piece ends with status {status}")
    return said.strip()


def held(piece, program, printed):
    if printed is not None and printed != EXPECTED[program]:
        piece.fails(f"the piece prints {printed!r}, not {EXPECTED[program]!r} as the page says")


def c_source(piece):
    EXPECTED["a.out"] = ", ".join(re.search(rf"{what}: (\d(?: \d)+)", piece.text)[1] for what in ("four numbers", "eight pixels"))
    with open(f"{OUT}/my_emulator.c", "w") as file:
        file.write(C_FRAME % piece.text)


def c_run(piece, name):
    """A source of target/pages compiled, linked and run: what it printed, or None where it does not compile."""
    tools = kit()[1]
    said, status = run([f"{tools}/bin/clang", "--target=x86_64-unknown-linux-gnu", "-std=c11", "-Wall", "-Wextra", "-Werror", "-O2", "-fPIC", "-Ihost", "-c",
                        f"{OUT}/{name}.c", "-o", f"{OUT}/piece.o"])
    if status:
        piece.fails(f"the piece does not compile: {said.strip()}")
        return None
    return linked(piece, [f"{OUT}/piece.o", LIBRARY])


def c_piece(piece):
    held(piece, "a.out", c_run(piece, "my_emulator"))


def c_shows(piece):
    """Each show of the piece has the number and the pixels of the comment beside it."""
    shows = re.findall(SHOWN, piece.text)
    if len(shows) != piece.text.count("iddesmar_shown "):
        piece.fails("a show has no comment with its number and its pixels")
    EXPECTED["shows"] = "\n".join(said for _, said in shows)
    with open(f"{OUT}/shows.c", "w") as file:
        file.write(C_SHOWS % (piece.text, "\n".join(f"    told({name});" for name, _ in shows)))
    held(piece, "shows", c_run(piece, "shows"))


def rust_source(piece, name="my_emulator"):
    EXPECTED[name] = re.search(r"let pixels = .*// (\[[\d, ]+\])", piece.text)[1]
    shutil.copy("host/iddesmar.rs", f"{OUT}/iddesmar.rs")
    with open(f"{OUT}/{name}.rs", "w") as file:
        file.write(RUST_FRAME % piece.text)


def rust_run(piece, name):
    """The same of a source in Rust; None too where there is no rustc for x86-64."""
    rustc, status = run("bench/x86-rustc")
    if status:
        lacks(f"the piece of Rust was not compiled: {rustc.strip()}")
        return None
    said, status = run(f"{rustc.strip()} --edition 2021 -O -D warnings -C panic=abort --crate-type staticlib {OUT}/{name}.rs -L target/staticlib -o {OUT}/libpiece.a")
    if status:
        piece.fails(f"the piece does not compile: {said.strip()}")
        return None
    return linked(piece, [f"{OUT}/libpiece.a"])


def rust_piece(piece):
    held(piece, "my_emulator", rust_run(piece, "my_emulator"))


def rust_shows(piece):
    rust_source(piece, "shows_in_rust")
    held(piece, "shows_in_rust", rust_run(piece, "shows_in_rust"))


def example_c(piece):
    """The lines of host/example.c, which host/run compiles and runs; `..` stands for what is left out."""
    example = "\n" + open("host/example.c").read()
    for part in piece.text.split("\n    .."):
        if part.strip("\n") not in example:
            piece.fails("the piece is not what stands in host/example.c")


# ---- Rattle, held to its source, and run

# Map Mask 5 and every bit of the Bit Mask: the write changes eight bits of the planes 0 and 2
RATTLE_FRAME = """#![tactic(auto)]

use machine_types::{GraphicsController, Lent, LentToStore, Sequencer};

fn main(rt: HostRuntime) {
    let mut p0 = [0u8; 65536];
    let mut p1 = [0u8; 65536];
    let mut p2 = [0u8; 65536];
    let mut p3 = [0u8; 65536];
    let mut picture = [0u8; 524288];
    let mut gc = GraphicsController::new();
    gc.registers.bitmask = 0xFF;
    let mut seq = Sequencer::new();
    seq.map_mask = 5;
    seq.memory_mode = 4;
%s
}
"""
RATTLE_ARMS = """    Ok(x) => {
        let _ = println!(rt; "{} {} {} {}, and {} counted", x.p0, x.p1, x.p2, x.p3, gc.stats.mode_0_writes);
    }
    Err(x) => {
        let _ = println!(rt; "refused with {}", x as u8);
    }"""
RATTLE_SAYS = "8 0 8 0, and 1 counted"


def source(crate):
    folder = f"crates/{crate}/src"
    return "\n".join(open(f"{folder}/{name}").read() for name in sorted(os.listdir(folder)))


def fits(given, name, kind):
    """Is an argument of the page one for that parameter of the source?"""
    lent = re.match(r"&(mut )?", kind)
    if lent and not given.startswith(lent[0]):
        return False
    word = given.removeprefix("&mut ").removeprefix("&")
    return word == name or (kind == "bool" and word in ("true", "false")) or (kind in ("usize", "u8", "PlaneOffset") and re.fullmatch(r"0x[0-9A-F]+|\d+", word) is not None)


def fields_of(types, name):
    """The fields of a struct, in its order; none where there is no such struct."""
    body = re.search(rf"pub struct {name}(?:<[^>]*>)? \{{([^}}]*)\}}", types)
    return re.findall(r"pub (\w+):", body[1]) if body else []


def rattle(piece):
    crate, function, given = re.search(r"= (\w+)::(\w+)\((.*)\);", piece.text).groups()
    declared = re.search(rf"pub fn {function}\(([^)]*)\) -> (\w+)", source(crate))
    if not declared:
        piece.fails(f"crates/{crate}/src has no pub fn {function}")
        return
    parameters = [tuple(part.strip().split(": ", 1)) for part in declared[1].split(",\n") if part.strip()]
    arguments = [part.strip() for part in given.split(",")]
    if len(parameters) != len(arguments) or not all(fits(a, *p) for a, p in zip(arguments, parameters)):
        piece.fails(f"{function} takes ({', '.join(': '.join(p) for p in parameters)})")
    types = source("machine_types")
    for field in re.findall(r"\br\.(\w+)", piece.text):
        if field not in fields_of(types, declared[2]):
            piece.fails(f"{declared[2]} has no field {field}")
    for name, made in re.findall(r"= ([A-Z]\w+) \{ (.*) \};", piece.text):
        if [part.split(": ")[0] for part in made.split(", ")] != fields_of(types, name):
            piece.fails(f"{name} has the fields {', '.join(fields_of(types, name))}")
    for name, variant in re.findall(r"\b([A-Z]\w+)::(\w+)", piece.text):
        body = re.search(rf"pub enum {name} \{{([^}}]*)\}}", types)
        if not body or not re.search(rf"\b{variant}\b", body[1]):
            piece.fails(f"no {name}::{variant} in crates/machine_types/src")
    rattle_run(piece, crate)


def rattle_run(piece, crate):
    """The piece as a program over the sources of the tree, which `rt try` compiles and runs: among the temporary files, since `rt ci` takes no source outside a crate's folder."""
    with tempfile.TemporaryDirectory() as folder:
        for sources in glob.glob("crates/*/src"):
            shutil.copytree(sources, f"{folder}/{sources}")
        os.makedirs(f"{folder}/crates/piece/src")
        with open("crates.txt") as listed, open(f"{folder}/crates.txt", "w") as file:
            file.write(f"{listed.read()}\npiece: machine_types {crate}\n")
        with open(f"{folder}/crates/piece/src/main.rt", "w") as file:
            file.write(RATTLE_FRAME % piece.text.replace("\n    ..\n", f"\n{RATTLE_ARMS}\n"))
        said, status = run(["rt", "try"], at=f"{folder}/crates/piece")
    if status or said.strip() != RATTLE_SAYS:
        piece.fails(f"the piece ends with status {status} and says {said.strip()!r}, not {RATTLE_SAYS!r}")


# ---- what is printed, and what theorems have


def version(piece):
    said = run("rt version")[0].strip()
    if piece.text != said:
        notes.append(f"the page names the kit {piece.text}, and the one at hand is {said}")


def output(piece, printed):
    if printed != piece.text + "\n":
        piece.fails(f"this is not what the command before printed, which is:\n{printed}")


def drawn_planes(piece, printed):
    """The four planes drawn give the pixels beside them, and those are the show of the tape above."""
    rows = {m[1]: m[2].split() for m in (re.match(r"(plane \d|pixels) +(\S(?: \S){7})", line) for line in piece.lines) if m}
    pixels = [sum((rows[f"plane {p}"][i] == "#") << p for p in range(4)) for i in range(8)]
    shown = "".join(f"{pixel:X}" for pixel in pixels)
    if [f"{pixel:X}" for pixel in pixels] != rows["pixels"] or f"\n10 8 0 {shown}\n" not in printed:
        piece.fails(f"the planes drawn give the pixels {shown}")


def text_of_a_tape(piece):
    with open(f"{OUT}/draw.txt", "w") as file:
        file.write(piece.text + "\n")


CASE_11 = "gc-address 6\ngc-data 4\ngc-address 8\ngc-data 0xFF\ngc-address 5\ngc-data 2\nseq-address 4\nseq-data 4\nseq-address 2\nseq-data 7\nwrite 0xA0000 0 5\nshow 0\n"


def case_11(piece):
    """The case as a tape: its show is the page's pixels."""
    printed, _ = run("tape/text-to-tape | ./run-tape -", given=CASE_11)
    if not printed.endswith(f" 8 0 {piece.text.replace(' ', '')}\n"):
        piece.fails(f"case 11 as a tape shows {printed.split()[-1:]}")


def two_prices(piece):
    text = open("crates/machine/proofs/Example.antt").read()
    for line in piece.lines:
        name, *pixels = line.split()
        stated = re.search(rf"^{name}-says :(.*?)^{name}-says =", text, re.M | re.S)
        if not stated or " ∷ ".join([*pixels, "[]"]) not in " ".join(stated[1].split()):
            piece.fails(f"Example.antt does not say these pixels of {name}")


# case 9's three values of Color Don't Care; its Color Compare is 3
CARES = 0xF, 3, 0


def compare_table(piece):
    """A compare read by whole bytes: each plane's row by the rule, the bytes that the example tape reads (the last row, then each plane by itself), the comment beside the code."""
    rows = [[int(cell, 16) for cell in line.split()] for line in piece.lines[1:5]]
    for plane, row in enumerate(rows):
        spread = 0xFF * (3 >> plane & 1)
        agrees = 0xFF ^ row[1] ^ spread
        if row != [plane, row[1], spread, agrees, *(agrees if care >> plane & 1 else 0xFF for care in CARES)]:
            piece.fails(f"the rule gives other bytes in the row of plane {plane}")
    read = [int(line.split()[3]) for line in open("tape/examples/compare-read.out") if line.split()[1] == "5"]
    if read != [int(cell, 16) for cell in piece.lines[5].split()[-3:]] + [row[4] for row in rows]:
        piece.fails("tape/examples/compare-read.out has other bytes than the last row and the column of Don't Care F")
    if "\n".join("//     " + line for line in piece.lines) not in open("crates/graphics_paths/src/compare.rt").read():
        piece.fails("the comment of crates/graphics_paths/src/compare.rt has not these lines")


def found_pixels(piece):
    """Under each Don't Care the pixels that have colour 3 as far as it looks, and the byte that they are."""
    pixels = [int(pixel) for pixel in piece.lines[0].split()[1:]]
    for line, care in zip(piece.lines[1:], CARES):
        found = [pixel & care == 3 & care for pixel in pixels]
        byte = sum(is_found << 7 - i for i, is_found in enumerate(found))
        if line.split() != ["Don't", "Care", f"{care:X}", *(".#"[is_found] for is_found in found), f"{byte:02X}"]:
            piece.fails(f"Don't Care {care:X} finds other pixels")


def shaded_bars(piece):
    """Each row's pixels are what the example tape shows, row by row."""
    drawn = [re.search(r"[0-9A-F](?: [0-9A-F]){7}", line)[0].replace(" ", "") for line in piece.lines]
    shown = [line.split()[3] for line in open("tape/examples/shaded-bar.out") if line.split()[1] == "8"]
    if drawn != shown:
        piece.fails(f"tape/examples/shaded-bar.out has {' '.join(shown)}")


def chained_bytes(piece):
    """Each address's plane and offset by the rule, and the byte that the example tape's first read or peek of it answers."""
    with open("tape/examples/chain-four.txt") as text, open("tape/examples/chain-four.out") as out:
        records = [line.split() for line in text if not line.startswith("#")]
        answers = [line.split()[3] for line in out]
    first = {}
    for (name, where, *_), answer in zip(records, answers):
        if name in ("read", "peek"):
            first.setdefault(int(where, 16), answer)
    addresses = [int(address, 16) for address in piece.lines[0].split()[1:]]
    offsets = [address - 0xA0000 for address in addresses]
    rule = [[offset % 4 for offset in offsets], [offset - offset % 4 for offset in offsets], [first.get(address) for address in addresses]]
    if [line.split()[-len(addresses):] for line in piece.lines[1:]] != [[str(number) for number in row] for row in rule]:
        piece.fails("the rule and tape/examples/chain-four.out have " + "; ".join(" ".join(map(str, row)) for row in rule))


# the pixels of each shift mode by the rule: from the four planes' bytes at the offset, and from plane 1's at the next
SHIFT_MODES = {
    "Standard": lambda planes, after: [sum((byte >> 7 - i & 1) << plane for plane, byte in enumerate(planes)) for i in range(8)],
    "Chain4": lambda planes, after: [half for byte in planes for half in (byte >> 4, byte & 15)],
    "CGACompatible": lambda planes, after: [byte >> shift & 3 for byte in (planes[0], after) for shift in (6, 4, 2, 0)],
}


def shift_modes(piece):
    """Each row's pixels by the rule, from the bytes that the sentence before the piece names; they are the first shows of the example tape."""
    page = open(piece.page, encoding="utf-8").read()
    four, one = re.search(r"Planes ((?:[0-9A-F]{2} ){4})at offset 0, and ([0-9A-F]{2}) in plane 1 at 1:", page).groups()
    planes, after = [int(byte, 16) for byte in four.split()], int(one, 16)
    drawn = []
    for name, pixels in (re.match(r"(\w+) +([0-9A-F](?: [0-9A-F]){7})", line).groups() for line in piece.lines):
        drawn.append(pixels.replace(" ", ""))
        rule = "".join(f"{pixel:X}" for pixel in SHIFT_MODES[name](planes, after))
        if drawn[-1] != rule:
            piece.fails(f"{name} has {rule} by the rule")
    shown = [line.split()[3] for line in open("tape/examples/shift-modes.out") if line.split()[1] == "8"]
    if drawn != shown[:len(drawn)]:
        piece.fails(f"tape/examples/shift-modes.out has {' '.join(shown)}")


# vram's stores by their operations in lists
STORES = {"write_u8": 6, "plane_set": 7, "plane_and": 8, "plane_or": 9}


def changed_bytes(piece):
    """Stores into plane 2 at 0, one after the other: the bits that differ between a byte drawn and the one before it are counted here, and `replay` answers these numbers and leaves these bytes."""
    old, calls, lines = 0, [], []
    for line in piece.lines:
        name, byte, drawn, bits, answers = re.fullmatch(r"(\w+) +([0-9A-F]{2}) +([.#](?: [.#]){7}) +(\d) bits? +answers (\d \d \d \d)", line).groups()
        new = int(drawn.replace(" ", "").replace("#", "1").replace(".", "0"), 2)
        count = bin(old ^ new).count("1")
        if (bits, answers) != (str(count), f"0 0 {count} 0"):
            piece.fails(f"{new:02X} over {old:02X} changes {count} bits")
        calls += [f"{STORES[name]} 2 0 {int(byte, 16)}", "1 2 0"]
        lines += [f"{len(lines) + 1} {STORES[name]} 0 {answers}", f"{len(lines) + 2} 1 0 {new}"]
        old = new
    said, _ = run("target/bin/replay", given="\n".join(calls) + "\n")
    if said.split("\n") != [*lines, ""]:
        piece.fails(f"`replay` says\n{said}")


# The pieces, in their order: page, how the first line starts, what is done with it.
PIECES = [
    ("README.md", "./run-tape", "shell", "commands"),
    ("README.md", "rattle-kit", version, "compared with `rt version`; another kit is said, and is no failure"),
    ("README.md", "bits  ", None, "a drawing; docs/check looks for every crate of crates.txt in it"),
    ("README.md", "./run-tape", "shell", "commands"),
    ("README.md", "1 3 0 0", output, "held to what the command before prints"),
    ("README.md", "plane 0", drawn_planes, "held to the show of the tape above"),
    ("README.md", "# draw.txt", text_of_a_tape, "the text that the commands after it make a tape of"),
    ("README.md", "tape/text-to-tape", "shell", "commands"),
    ("README.md", "5 5 5 5", case_11, "held to case 11, run as a tape"),
    ("README.md", "cheap", two_prices, "held to `cheap-says` and `dear-says` of Example.antt"),
    ("README.md", "plane   latch", compare_table, "held to the rule, to tape/examples/compare-read.out and to the comment of crates/graphics_paths/src/compare.rt"),
    ("README.md", "pixels", found_pixels, "held to the colours drawn"),
    ("README.md", "./run-tape", "shell", "commands"),
    ("README.md", "the label", shaded_bars, "held to the shows of tape/examples/shaded-bar.out"),
    ("README.md", "./run-tape", "shell", "commands"),
    ("README.md", "address  ", chained_bytes, "held to the rule and to tape/examples/chain-four.out"),
    ("README.md", "./run-tape", "shell", "commands"),
    ("README.md", "Standard  ", shift_modes, "held to the rule and to the shows of tape/examples/shift-modes.out"),
    ("README.md", "./run-tape", "shell", "commands"),
    ("README.md", "write_u8  0F", changed_bytes, "held to the bits that differ, and to what `replay` answers"),
    ("README.md", "scripts/build replay", "shell", "commands"),
    ("README.md", "let mut memory: LentToStore", rattle, "held to the names in crates/graphics_controller/src and crates/machine_types/src; compiled in a frame and run by `rt try`"),
    ("README.md", "scripts/build host", "shell", "commands"),
    ("README.md", "gc = iddesmar_gc_new", c_piece, "compiled in a frame, linked and run; its numbers and its pixels are those of its comments"),
    ("README.md", "oracle/check", "shell", "commands"),
    ("host/README.md", "scripts/build host", "shell", "commands"),
    ("host/README.md", "static const uint8_t bytes", c_shows, "compiled in a frame, linked and run; each show's number and pixels are those of its comment"),
    ("host/README.md", "let (mut gc, mut seq)", rust_shows, "compiled in a frame, linked and run; its pixels are those of its comment"),
    ("host/README.md", "A0000: 0", None, "what host/example.c prints: host/run holds it to the page"),
    ("host/README.md", "static uint8_t planes", example_c, "lines of host/example.c, which host/run compiles and runs"),
    ("host/README.md", "let mut gc", rust_piece, "compiled in a frame, linked and run; its pixels are those of its comment"),
]


def paired(found):
    """Each piece of the pages with its entry; one more or one less is a failure."""
    pairs, entries = [], list(PIECES)
    for piece in found:
        if entries and entries[0][0] == piece.page and piece.lines[0].startswith(entries[0][1]):
            pairs.append((piece, entries.pop(0)))
            continue
        later = next((i for i, e in enumerate(entries) if e[0] == piece.page and piece.lines[0].startswith(e[1])), None)
        if later is None:
            piece.fails(f"a piece that docs/run_pages.py does not know: {piece.lines[0].strip()}")
            continue
        for entry in entries[:later]:
            wrong.append(f"{entry[0]}: no piece starts with '{entry[1]}' where docs/run_pages.py expects one")
        pairs.append((piece, entries[later]))
        entries = entries[later + 1:]
    for entry in entries:
        wrong.append(f"{entry[0]}: no piece starts with '{entry[1]}' where docs/run_pages.py expects one")
    return pairs


def main(listing):
    pairs = paired([piece for page in PAGES for piece in pieces(page)])
    shutil.rmtree(OUT, ignore_errors=True)
    os.makedirs(OUT)
    if not listing and not os.path.exists(LIBRARY):
        print(f"pages: {LIBRARY} is not there; `scripts/build host` makes it")
        return 1
    for piece, entry in pairs:
        if entry[2] in (c_piece, rust_piece):
            (c_source if entry[2] is c_piece else rust_source)(piece)
    printed = ""
    for piece, (_, _, action, how) in pairs:
        if listing:
            print(f"{piece.page}:{piece.line}: {piece.lines[0].strip()[:60]}: {how}")
        if action == "shell":
            printed = shell(piece, listing) or printed
        elif action in (output, drawn_planes) and not listing:
            action(piece, printed)
        elif action and not listing:
            action(piece)
    for text in wrong + [f"pages: {text}" for text in missing + notes]:
        print(text)
    if wrong or (missing and os.environ.get("CI") == "true"):
        print(f"pages: {len(wrong)} wrong")
        return 1
    if not listing:
        print(f"pages: {len(pairs)} pieces of code and commands ran, or are held to the tree")
    return 0


sys.exit(main(sys.argv[1:] == ["--list"]))
