#!/usr/bin/env python3
"""What a reader must believe: all that the clauses of `run` reach, in reading order, each with its sentence.

    docs/meaning.py            writes docs/MEANING.md anew from the sources
    docs/meaning.py --check    compares docs/MEANING.md with the sources

The status of either is 1 where something that is reached is missing, has no sentence, or has a name that means something else too,
and of the second where the two differ.

It begins at the contract of `run` (crates/sfm_run/src/call.rt) and follows each word, as the `use` lines of its file say:
- to a definition in the `specs/` of a crate: a block of lines that begins at the left margin, behind a comment that says in a
  sentence what it means; an operator is used where all its signs stand (`◌>>=◌` and `◌>>◌` also by a `do` block);
- to a type or a trait in the `src/` of a crate, behind its `///` lines, with what a type is to clauses (`impl Model`). Of a
  struct without a model, what the code keeps for itself is named alone; of a trait the members and laws are followed;
- to a word of the library, which is named by its module and not followed.
Definitions that the clauses reach through definitions alone are counted by themselves, and all else apart.
"""
import argparse
import collections
import pathlib
import re
import sys
import types

ROOT = pathlib.Path(__file__).resolve().parent.parent
DOCUMENT = ROOT / "docs" / "MEANING.md"
TOP = "sfm_run/call", "run"

# In reading order: the mathematics, then the texts, then the outside and how a call ends. A name with a dot is a file of
# definitions, one with a stroke a file of code; a dot or a stroke at the end stands for all others of the crate.
PARTS = [
    ("Sets, terms and their sums", [
        "sfm_spec.Sets", "sfm_spec.Terms", "sfm_spec.Kinds", "sfm_spec.Families", "sfm_spec.Laws", "sfm_spec.Slopes",
        "sfm_spec.Blocks", "sfm_spec.Walks", "sfm_spec.Bounds", "sfm_spec.", "sfm_layers.", "sfm_squares."]),
    ("Terms as they are kept", [
        "sfm_base/", "sfm_base.", "sfm_law.", "sfm_simple.", "sfm_simple/", "sfm_concave.", "sfm_concave/",
        "sfm_laminar.", "sfm_laminar/", "sfm_graphic.", "sfm_graphic/", "sfm_matroid.", "sfm_matroid/", "sfm_kind/",
        "sfm_kind."]),
    ("Instance texts", [
        "sfm_spec.Names", "sfm_base.NumberText", "sfm_lines.Lines", "sfm_lines/word", "sfm_lines.Parts",
        "sfm_lines.LabelTerms", "sfm_lines.RankLines", "sfm_lines.Versions", "sfm_lines.Words", "sfm_lines.TermLines", "sfm_lines/",
        "sfm_lines.Reading", "sfm_text.Language", "sfm_text.GoodText", "sfm_lines.Reasons", "sfm_lines.", "sfm_text."]),
    ("Texts beside an instance", ["sfm_side.Side", "sfm_side.Numbers", "sfm_side.", "sfm_edit.", "sfm_ask."]),
    ("Answer texts", ["sfm_cert.", "sfm_check/", "sfm_check.", "sfm_level."]),
    ("Two sums at once", ["sfm_meet.Common", "sfm_meet.Met", "sfm_meet.", "sfm_met.MetText", "sfm_met."]),
    ("The text of a demonstration", ["sfm_demo.Draws", "sfm_demo/", "sfm_demo."]),
    ("The outside, the words, and how a call ends", [
        "sfm_io.", "sfm_io/", "sfm_words.Subcommand", "sfm_words.", "sfm_due/", "sfm_due.Moves", "sfm_due.Due", "sfm_due.",
        "sfm_pair/", "sfm_pair.",
        "sfm_run.Task", "sfm_run.Files", "sfm_run.Tasks", "sfm_run."]),
    ("The contract", ["sfm_run/"]),
]

# Sentences of definitions before which their files have none.
SENTENCES = {
    "complement": "the places that are not in the set",
    "edges_of": "the edges of these pairs, in their order",
    "◌>>=◌": "what m makes, and then what f makes of its value, from the state that m leaves",
}

HEAD = """# What must be believed

The contract of the one top call `run` (`crates/sfm_run/src/call.rt`) is proved. What it says rests on what stands below: all
that its clauses reach, from the mathematics up to these clauses, with the words of the library behind them. Each definition
stands below the sentence that says what it means. Among them stand the types of the code that clauses name, and the traits over
which `run` stands, with the laws that they promise. A reader who agrees with all this needs to read no code and no proof.

To a clause an unsigned number of the code is a `ℕ` and a signed one a `ℤ`, an array or a slice is the list of its items, which
a `Vec` has as its `items`, and a value of a type with a model (`impl Model`) is what its `view` gives; its `invariant` always
holds, as the `ghost` facts of a struct do. `x.old` and `x.new` are what a value was before a call and is after it, `x.now` is
what is only read, and `result` what the call gives.

`docs/meaning.py` makes this page from the sources, and `docs/meaning.py --check` compares the two.
"""

POSSIBLE = """Each of these is proved to keep these promises. The one over memory tells all that may be told, and fails at whichever
calls it is made to fail at: so it shows that they are possible, with faults and without."""

LIBRARY = """## Words of the library

These mean what the library of the toolchain says. Each stands in the module of its facade under which it is listed; `Prelude`
and `Common` pass on those that most definitions use, and `std::` are modules of the code. What is not listed belongs to the
language of the definitions: `→`, `×`, `λ`, `let`, `do`, `record`, `data`, `Type`, `⊥`, which has no value, and `Unit`, with one.
"""

WORD = re.compile(r"[^\s(){}\[\],;:|→×⊎λ=≡∷]+")
SIGN = re.compile(r"[^\s(){}\[\],;]+")
TEXT = re.compile(r'"(?:[^"\\]|\\.)*"')
USE = re.compile(r"^ *(?:pub |ghost )?use (?:Rattle\.)?([\w.]+?)\.\{(.*)\};?$", re.M)
WITHIN = re.compile(r"([\w.]+)\.\{([^{}]*)\}")
USE_WHOLE = re.compile(r"^ *(?:pub |ghost )?use Rattle\.([\w.]+?)(?: as (\w+))?;?$", re.M)
USE_CODE = re.compile(r"^(?:pub )?use ((?:\w+::)+)(\w+|\{[^}]*\});$", re.M)
LEADING = {"abbrev", "pub", "record", "data", "unfoldable", "infix", "infixl", "infixr"}
ITEM = re.compile(r"(?:pub(?:\(crate\))? )?(struct|enum|trait|type) (\w+)")
FIELD = re.compile(r" {4}(pub )?(ghost )?(\w+): (?:\{ (\w+) ≡ )?")
BY_DO = {"◌>>=◌", "◌>>◌"}


class Block:
    """A definition, a type or a trait: its lines, the sentence before it, and what is read of it to follow its words."""

    def __init__(self, kind, sentence):
        self.kind = kind
        self.sentence = sentence
        self.lines = []
        self.kept_by = []

    def text(self):
        """The lines without texts and comments, of which no word is followed."""
        sign = "--" if self.kind == "definition" else "//"
        return TEXT.sub("", "\n".join(line.split(sign)[0] for line in self.lines))

    def words(self):
        text = self.text()
        return set(WORD.findall(text)) | (set() if self.kind == "definition" else set(re.findall(r"\w+", text)))

    def hide(self, used):
        """Leaves of a struct the fields that clauses may speak of, with the facts about them. A private field, and one that a
        fact gives by an equation and no definition uses, is what the code keeps for itself: it is named alone."""
        fields, comment = [], []
        for line in self.lines[1:-1]:
            field = FIELD.match(line)
            if field:
                fields.append((field, comment + [line]))
            elif not line.startswith("    //"):
                fields[-1][1].append(line)
            comment = [] if field else comment + [line]
        hidden = {field[3] for field, _ in fields if not field[1] and not field[2]}
        hidden |= {field[4] for field, _ in fields if field[2] and field[4] and field[4] not in used}
        told = [line for field, lines in fields if not hidden & {field[3]} and not (
            field[2] and hidden & set(re.findall(r"\w+", " ".join(lines)))) for line in lines]
        self.lines[1:-1] = told + (["    // and what the code keeps for itself: " + ", ".join(sorted(hidden))] if hidden else [])

    def size(self):
        """How many lines there are to be read; a brace alone is none."""
        return sum(line.strip() not in ("", "}") for line in self.lines)


class Module:
    """One file: its blocks by name, in their order, the values that its types of cases list, and what its `use` lines bring."""

    def __init__(self, name, path):
        self.name, self.path = name, path.relative_to(ROOT)
        self.blocks, self.cases = {}, {}
        text = path.read_text()
        self.imports, self.aliases = imports_of(text)
        self.read(text.split("\n"))

    def operators(self, block):
        """The operators that a block uses, and the empty list."""
        text = block.text()
        signs = set(SIGN.findall(text))
        for name in [*self.imports, *self.blocks]:
            if name == "[]" and "[]" in text or "◌" in name and (
                    name in BY_DO and "do" in signs or all(part in signs for part in name.split("◌") if part)):
                yield name


class Definitions(Module):
    """A file of `specs/`."""

    def read(self, lines):
        comment, block = [], None
        for line in lines:
            if line.startswith("--"):
                comment, block = comment + [line.lstrip("-").strip()], None
            elif not line.strip() or re.match(r"(pub )?(use|mod) ", line):
                comment, block = [], None
            else:
                if line[0] not in " \t" and (block is None or line.split()[0] in LEADING or name_of(line) in self.blocks):
                    block = self.blocks.setdefault(name_of(line), Block("definition", " ".join(comment).strip()))
                    comment = []
                elif block and block.lines[0].startswith(("data ", "pub data ")) and re.match(r" +\w+ : ", line):
                    self.cases[line.split()[0]] = name_of(block.lines[0])
                if block:
                    block.lines.append(line)


class Code(Module):
    """A file of `src/`: its types and traits, and the top call."""

    def read(self, lines):
        crate = self.name.split("/")[0]
        for source, listed in USE_CODE.findall("\n".join(lines)):
            names = [name.strip() for name in listed.strip("{}").split(",")]
            self.imports.update({name: code_place(crate, source, name) for name in names if re.match(r"[A-Z].*[a-z]", name)})
        self.models = []
        for i, line in enumerate(lines):
            item, model = ITEM.match(line), re.match(r"impl(?:<.*?>)? (\w+) for (\w+)", line)
            if item:
                self.blocks[item[2]] = self.block(lines, i, item[1])
            elif (self.name, line.split("<")[0].split()[-1:]) == (TOP[0], [TOP[1]]):
                self.blocks[TOP[1]] = self.block(lines, i, "call")
            elif model:
                self.models.append((model[1], model[2], self.block(lines, i, "impl")))

    def block(self, lines, start, kind):
        comment = start
        while lines[comment - 1].startswith(("///", "#[")):
            comment -= 1
        said = [line[3:].strip() for line in lines[comment:start] if line.startswith("///")]
        block = Block(kind, " ".join(said))
        for line in lines[start:]:
            if line.startswith("{") and kind == "call":
                break
            if not re.match(r" +ghost use ", line) and (line.strip() or not block.lines[-1].endswith("{")):
                block.lines.append(line)
            if line.startswith("}") or line.endswith(";") and block.lines == [line]:
                break
        return block


def name_of(line):
    """The name that a line at the left margin defines."""
    words = [word for word in re.split(r"[\s({:]+", line) if word]
    while words and (words[0] in LEADING or words[0].isdigit()):
        words.pop(0)
    return words[0] if words else line


def imports_of(text):
    """What the `use` lines of definitions bring: names with their places, and short names of whole modules."""
    names = {}
    for source, listed in USE.findall(text):
        within = [(source + "." + inner, entries) for inner, entries in WITHIN.findall(listed)]
        for origin, entries in [*within, (source, WITHIN.sub("", listed))]:
            for entry in entries.split(","):
                there, _, here = entry.strip().partition(" as ")
                if there:
                    names[here or there] = place_of(origin, there)
    return names, {short or source.split(".")[-1]: source for source, short in USE_WHOLE.findall(text)}


def place_of(source, name):
    """Where a name of a module stands: in a file of definitions, `sfm_spec.Sets`; in a file of code, `sfm_kind/kind`, by its
    type; or in the library."""
    crate, *parts = source.split(".")
    if not crate.startswith("sfm") or parts[0] != "specs":
        return source, name
    if parts[1] != "declared":
        return ".".join([crate] + parts[1:]), name
    parts = [part for part in parts[2:] if part != "TheVariants"]
    return crate + "/" + "/".join(parts[:-1]), parts[-1]


def code_place(crate, source, name):
    """Where the code of a crate finds a name of this module of code: in a file of its own, in a crate, or in the library."""
    first, *rest = source.strip(":").split("::")
    if first == "crate":
        return crate + "/" + "/".join(rest), name
    return (first + "/" if first.startswith("sfm") else source.strip(":")), name


def read_sources():
    """All files of definitions and of code, and for each crate, as `sfm_io/`, what its types and traits are by name, also those
    that it passes on. A model is put behind its type, and an object beside the trait whose promises it keeps."""
    modules = {}
    for path in sorted((ROOT / "crates").glob("*/*/**/*.*")):
        crate, folder, *parts = path.relative_to(ROOT / "crates").with_suffix("").parts
        if folder == "specs" and path.suffix == ".antt":
            module = Definitions(".".join([crate] + parts), path)
        elif folder == "src" and path.suffix == ".rt" and not crate.endswith("_tests"):
            module = Code(crate + "/" + "/".join(parts), path)
            whole = modules.setdefault(crate + "/", types.SimpleNamespace(
                name=crate + "/", blocks={}, cases={}, aliases={}, imports={}))
            whole.imports.update({name: (module.name, name) for name in module.blocks})
            if parts == ["lib"]:
                passed = {name: place for name, place in module.imports.items() if place[0].endswith("/")}
                whole.imports = {**passed, **whole.imports}
        else:
            continue
        modules[module.name] = module
    for module in [module for module in modules.values() if isinstance(module, Code)]:
        for trait, name, block in module.models:
            if trait == "Model" and name in module.blocks:
                module.blocks[name].lines += [""] + block.lines
            elif trait in module.imports and module.imports[trait][0].startswith("sfm"):
                place, there = resolve(trait, module, modules)
                modules[place].blocks[there].kept_by.append((name, module))
    return modules


def resolve(word, module, modules):
    """What a word of a module means, also where another module passes it on: its place and its name; None where it is bound
    in its own definition, or belongs to the language."""
    if word in module.blocks or word in module.cases:
        return module.name, word if word in module.blocks else module.cases[word]
    first, _, rest = word.partition(".")
    if word in module.imports:
        place, name = module.imports[word]
    elif rest and first in module.aliases:
        place, name = place_of(module.aliases[first], rest)
    else:
        return resolve(first, module, modules) if rest else None
    if not place.startswith("sfm"):
        return place, name
    found = resolve(name, modules[place], modules) if place in modules else None
    return found or sys.exit(f"meaning: {module.name} takes {name} from {place}, where it is missing")


def reached(modules, used=None):
    """All that the clauses of the top call reach; without `used`, through definitions alone, and by their names."""
    todo, found = [TOP], set()
    while todo:
        one = todo.pop()
        if one is None or one in found or used is None and one != TOP and "." not in one[0]:
            continue
        found.add(one)
        module = modules.get(one[0])
        if module:
            block = module.blocks[one[1]]
            if used is not None and block.kind == "struct" and block.lines.count("}") == 1:
                block.hide(used)
            words = block.words() | (set() if used is None else set(module.operators(block)))
            todo += [resolve(word, module, modules) for word in words]
    if TOP[0] not in modules:
        sys.exit("meaning: there is no top call")
    return found if used is not None else {one for one in found if one != TOP and one[0] in modules}


def part_of(place):
    """The place of a file in the reading order: its own, or that of the other files of its crate."""
    for prefix in place, re.match(r"\w+[./]", place)[0]:
        for i, (_, prefixes) in enumerate(PARTS):
            if prefix in prefixes:
                return i, prefixes.index(prefix)
    sys.exit(f"meaning: {place} has no place in the reading order")


def other_names(module, blocks):
    """The names that these blocks have for what its own file calls otherwise."""
    words = set().union(*(block.words() for block in blocks))
    for there, here in re.findall(r"^use .*?\b(\w+) as (\w+)", (ROOT / module.path).read_text(), re.M):
        if any(word.split(".")[0] == here for word in words):
            yield f"In this file `{here}` means `{there}`."


def entry(name, block, missing):
    """A block with its sentence, and beside a trait the objects that keep its promises."""
    said = block.sentence or SENTENCES.get(name) or missing.append(name) or "(no sentence)"
    lines = [f"`{name}`: {said if said[-1] in '.:' else said + '.'}", ""]
    lines += ["```antt" if block.kind == "definition" else "```rust", *block.lines, "```", ""]
    for other, module in block.kept_by:
        lines.append(f"- `{other}` (`{module.path}`): {module.blocks[other].sentence}")
    if block.kept_by:
        if not any(other.startswith("Memory") for other, _ in block.kept_by):
            sys.exit(f"meaning: no object over memory shows that the promises of {name} are possible")
        lines += ["", POSSIBLE, ""]
    return lines


def counted(modules, ours, alone):
    """The sentence on how much there is to be read, and the figures of it."""
    def size(keys):
        return sum(modules[place].blocks[name].size() for place, name in keys)

    kinds = {"trait": "traits", "call": "contract", "definition": "definitions that only these name"}
    apart = collections.defaultdict(set)
    for place, name in ours - alone:
        kind = kinds.get(modules[place].blocks[name].kind, "types of the code")
        apart["operators" if "◌" in name else kind].add((place, name))
    files = len({place for place, _ in alone})
    listed = ", ".join(f"{len(apart[kind])} {kind} ({size(apart[kind])} lines)" for kind in sorted(apart))
    return (f"There are {len(alone)} definitions, with {size(alone)} lines, in {files} files.\nCounted apart: {listed}.\n",
            f"{size(alone)} lines of definitions, and {size(ours - alone)} counted apart")


def document(modules):
    """The page, its figures, the names that have no sentence, and those that stand for two things."""
    alone = reached(modules)
    used = set(re.findall(r"\.(\w+)", "\n".join(modules[place].blocks[name].text() for place, name in alone)))
    found = reached(modules, used)
    ours = {one for one in found if one[0] in modules}
    head, figures = counted(modules, ours, alone)
    page, missing, part = [HEAD, head], [], None
    for place in sorted({place for place, _ in ours}, key=lambda place: (part_of(place), place)):
        if part_of(place)[0] != part:
            part = part_of(place)[0]
            page.append(f"## {PARTS[part][0]}\n")
        module = modules[place]
        blocks = {name: block for name, block in module.blocks.items() if (place, name) in ours}
        page.append(f"### `{module.path}`\n")
        page += [line + "\n" for line in other_names(module, blocks.values())]
        for name, block in blocks.items():
            page += entry(name, block, missing)
    page.append(LIBRARY)
    library = collections.defaultdict(set)
    for place, name in found - ours:
        library[place].add(name)
    page += [f"- `{place}`: {', '.join(f'`{name}`' for name in sorted(library[place]))}" for place in sorted(library)]
    named = collections.Counter(name for _, name in ours)
    return "\n".join(page) + "\n", figures, missing, sorted(name for name in named if named[name] > 1)


def main():
    options = argparse.ArgumentParser(description=__doc__.split("\n")[0])
    options.add_argument("--check", action="store_true", help="compare the page with the sources")
    page, figures, missing, twice = document(read_sources())
    found = ["no sentence before " + ", ".join(missing)] if missing else []
    if twice:
        found.append("one name for two things: " + ", ".join(twice))
    if not options.parse_args().check:
        DOCUMENT.write_text(page)
    elif DOCUMENT.read_text() != page:
        found.append("docs/MEANING.md is not what the sources say; docs/meaning.py writes it anew")
    print(figures)
    if found:
        sys.exit("meaning: " + "; ".join(found))


if __name__ == "__main__":
    main()
