#!/usr/bin/env python3
"""Which definitions the headline rests on, and whether BELIEVE.md says just that.

The headline is one clause of one public function (CLAUSE). From the names that it cites this follows all names through
the definitions of `crates/*/specs/*.antt` and the Rust types of `crates/*/src/`, counts the lines of each definition
once, for the first row of the page that needs it, and compares the counts with the page's table.

    python3 checks/believe.py            check the page: exit 1, with a line for each difference
    python3 checks/believe.py --write    write the page's table anew
    python3 checks/believe.py --files 2  print the files of row 2, in reading order: the lines that count, and those of the whole
    python3 checks/believe.py --read 2   print the definitions of row 2, in the same order

A row of the page is a section `## 2. Title`. The line behind its title is its question, and its line `Begins at:` names
the definitions that it begins at, as `Name`, `File.Name` or `crate.File.Name`. It ends where a later row begins.

A word that stands for a definition counts as cited wherever it stands, so that none is missed; a field behind a dot, or
before `=` in a record, is no citation. Where a name of the tree can't be found the check fails.
"""
import argparse
import pathlib
import re
import signal
import sys
from collections import namedtuple

CLAUSE = ("tcf", "done")
WORD = r"[\w'×]+"
CITED = re.compile(rf"\.?{WORD}(?:\.{WORD})*|[^\w\s()\[\]{{}};,.]+")
STRING = r'"(?:[^"\\]|\\.)*"'

# A definition: its file, name and lines, what it says without comments and field names, and the uses of its own block.
Item = namedtuple("Item", "file name lines code uses")
# A file: its crate, its definitions, those that its constructors belong to, and what its uses name.
Source = namedtuple("Source", "file crate items constructors uses")


def fail(message):
    """Ends the check: with this no page can be right."""
    sys.exit(f"believe.py: {message}")


# ---- reading the files

def ghost_uses(text):
    """What the lines `use Rattle..` name: local name -> (path, name), and alias -> (path, None)."""
    uses = {}
    form = r"^\s*(?:unfoldable |pub |ghost )*use (Rattle[\w.]+?)(?:\.\{([^}]*)\})?(?: as (\w+))?;?$"
    for path, names, alias in re.findall(form, text.replace("◌", ""), re.M):
        if alias or not names:
            uses[alias or path.split(".")[-1]] = (path, None)
        for entry in filter(None, map(str.strip, names.split(","))):
            name, _, local = entry.partition(" as ")
            uses[local or name] = (path, name)
    return uses


def rust_uses(text):
    """What the lines `use` of a Rust file name: local name -> (modules, name)."""
    uses = {}
    for path, names in re.findall(r"^(?:pub )?use ([\w:]+)(?:\{([^}]*)\})?;", text, re.M):
        for entry in filter(None, map(str.strip, names.split(","))) if names else [""]:
            *modules, last = (path + entry).split("::")
            name, _, local = last.partition(" as ")
            uses[local or name] = (modules, name)
    return uses


def comment_start(lines, at, marks):
    """Where the comment begins that stands directly above a line."""
    while at and lines[at - 1].lstrip().startswith(marks):
        at -= 1
    return at


def without_comments(lines, mark):
    return "\n".join(re.match(rf"(?:{STRING}|(?!{mark}).)*", line)[0] for line in lines)


def without_modules(lines):
    """The lines with those of a `module _ .. where` brought to the margin."""
    inside, out = False, []
    for line in lines:
        if re.match(r"module _ .* where$", line):
            inside, line = True, ""
        elif inside and line and not line.startswith("  "):
            inside = False
        out.append(line[2:] if inside else line)
    return out


def spec_source(file, crate):
    """The definitions of a file of specs."""
    lines = without_modules(file.read_text().split("\n"))
    form = r"(?:(?:pub |abbrev |unfoldable |def )*(record |data )?)(\S+) (?!=)"
    starts = [n for n, line in enumerate(lines)
              if re.match(r"(abbrev|unfoldable(?! pub use)|def|record|data|pub (?!use|mod)\S+) |[\w']+ : ", line)]
    items, constructors = {}, {}
    for start, after in zip(starts, starts[1:] + [len(lines)]):
        chunk = range(comment_start(lines, start, "--"), comment_start(lines, after, "--"))
        body = [n for n in chunk if lines[n].strip() and not re.match(r"(unfoldable )?(pub )?(use|mod) ", lines[n])]
        while lines[body[-1]].startswith("--"):  # a heading above what comes next
            body.pop()
        kind, name = re.match(form, lines[start].replace("◌", "")).groups()
        code = without_comments(lines[start:body[-1] + 1], "--")
        fields = re.compile(r"^  (?:pub )?([\w' ]+) : ", re.M)
        items[name] = Item(file, name, set(body), fields.sub("  ", code) if kind else code, {})
        for names in fields.findall(code) if kind == "data " else []:
            constructors.update((word, items[name]) for word in names.split())
    return Source(file, crate, items, constructors, ghost_uses("\n".join(lines)))


def rust_source(file, crate):
    """The types and traits of a Rust file. Of a type that has a value in the logic only this value is read."""
    text = file.read_text()
    lines, items = text.split("\n"), {}
    for start, line in enumerate(lines):
        found = re.match(r"(?:pub(?:\(\w+\))? )?(struct|enum|trait|type) (\w+)", line)
        if not found:
            continue
        (kind, name), end = found.groups(), start
        while not re.search(r"[;})]$", line) and not re.match(r"[})]", lines[end]):
            end += 1
        body = set(range(comment_start(lines, start, ("//", "#[")), end + 1))
        code, uses = without_comments(lines[start:end + 1], "//"), {}
        model = re.search(rf"^impl(?:<[^>]*>)? Model for {name}\b.*?ghost Value = \{{(.*?)\}};", text, re.M | re.S)
        if model:
            code, uses = model[1], ghost_uses(model[0])
            body = {n for n in body if n <= start} | {text[:model.start(1)].count("\n")}
        elif kind == "trait":
            uses, code = ghost_uses(code), re.sub(r"(?m)^ *ghost use.*$", "", code)
        else:
            labels = r"(?m)^ *#\[.*$|^    \w+" if kind == "enum" else r"(?m)^ *#\[.*$"
            code = " ".join(re.findall(r"\b[A-Z]\w*", re.sub(labels, "", code.partition(name)[2])))
        items[name] = Item(file, name, {n for n in body if lines[n].strip()}, code, uses)
    at_the_margin = re.sub(r"(?m)^\s.*$", "", text)
    return Source(file, crate, items, {}, {**rust_uses(text), **ghost_uses(at_the_margin)})


# ---- what a name stands for

class Tree:
    """The files of all crates, and what a name in one of them stands for."""

    def __init__(self, root):
        self.root, self.sources, self.source_of = root / "crates", {}, {}
        for file in sorted(self.root.glob("*/specs/**/*.antt")) + sorted(self.root.glob("*/src/**/*.rt")):
            crate, folder, *inside = file.relative_to(self.root).with_suffix("").parts
            if "tests" not in inside:
                read = spec_source if folder == "specs" else rust_source
                self.source_of[file] = self.sources[crate, folder, ".".join(inside)] = read(file, crate)
        self.crates = {crate for crate, _, _ in self.sources}

    def find(self, source, word, uses):
        """The definition that a word of a file stands for; None where it is none of the tree."""
        first, _, rest = word.partition(".")
        use = uses.get(first) or source.uses.get(first)
        if use and use[1] is None:
            return self.ghost(use[0], rest.split(".")[0], source)
        here = source.constructors.get(first) or source.items.get(first)
        if here or not use:
            return here
        return self.ghost(*use, source) if isinstance(use[0], str) else self.rust(source.crate, *use)

    def ghost(self, path, name, source):
        """The definition that a name of a `Rattle.` path stands for."""
        _, crate, _, *rest = path.split(".")
        if crate not in self.crates or not name:
            return None
        if rest[0] == "declared":
            *modules, kind = rest[1:-1] if rest[-1] == "TheVariants" else rest[1:]
            found = self.rust(crate, ["crate"] + modules, kind)
        else:
            there, lib = (self.sources.get((crate, "specs", at)) for at in (".".join(rest), "Lib"))
            if not there and lib and rest[0] in lib.uses:  # a file of another crate, passed on
                return self.ghost(".".join([lib.uses[rest[0]][0], *rest[1:]]), name, source)
            found = there and self.find(there, name, {})
        if not found:
            fail(f"{source.file.relative_to(self.root)} uses {path}.{name}, which isn't there")
        return found

    def rust(self, crate, modules, name):
        """The type that a Rust path stands for; None where it is none of the tree."""
        here = {source.file.stem: source for (owner, folder, _), source in self.sources.items()
                if owner == crate and folder == "src"}
        if modules[0] not in {"crate", "self", "super", *here}:
            return self.rust(modules[0], ["crate"] + modules[1:], name) if modules[0] in self.crates else None
        there = here.get(modules[-1], here["lib"])
        if name in there.items:
            return there.items[name]
        return self.rust(crate, *there.uses[name]) if name in there.uses else None

    def cited(self, item):
        """The definitions that a definition cites, in order."""
        code = re.sub(STRING, "", item.code)
        code = re.sub(rf"([{{;]\s*){WORD} =(?!=)", r"\1", code)  # the names of a record's fields
        words = CITED.findall(re.sub(r"\bdo\b", ">>=", code))  # `do` is written with this operator
        found = (self.find(self.source_of[item.file], word, item.uses) for word in words if word[0] != ".")
        return [other for other in found if other]


# ---- the closure, and its rows

def clause_item(tree):
    """The clause itself, as a definition."""
    form = r"^pub fn {}<([^>]*)>.*?^    ensures {} \{{(.*?)\}}\n\n".format(*CLAUSE)
    for source in tree.sources.values():
        text = source.file.read_text() if source.file.suffix == ".rt" else ""
        found = re.search(form, text, re.M | re.S)
        if found:
            first, last = text[:found.start(2)].count("\n"), text[:found.end(2)].count("\n")
            lines = range(comment_start(text.split("\n"), first, "//"), last + 1)
            bounds = dict(bound.strip().split(": ") for bound in found[1].split(","))
            uses = {name: source.uses[trait] for name, trait in bounds.items()}
            return Item(source.file, ".".join(CLAUSE), set(lines), found[2], uses)
    fail("no crate has a public function {} with a clause {}".format(*CLAUSE))


def closure(tree):
    """All that the clause leads to: (file, name) -> (definition, the keys of those that it cites)."""
    reached, queue = {}, [clause_item(tree)]
    for item in queue:
        if (item.file, item.name) not in reached:
            cited = tree.cited(item)
            reached[item.file, item.name] = item, [(other.file, other.name) for other in cited]
            queue += cited
    return reached


def root_key(tree, reached, written):
    """The one definition of the closure that the page means by `Name`, `File.Name` or `crate.File.Name`."""
    found = [(file, name) for file, name in reached
             if written in (name, f"{file.stem}.{name}", f"{tree.source_of[file].crate}.{file.stem}.{name}")]
    if len(found) != 1:
        fail(f"`{written}`, at which a row begins, is {len(found)} of the definitions behind the clause")
    return found[0]


def rows_of(tree, reached, roots):
    """The definitions of each row, in reading order: what its roots lead to, up to the roots of later rows."""
    taken, rows = set(), []
    for place, begin in enumerate(roots):
        given = {key for later in roots[place + 1:] for key in later}
        queue, passed = list(begin), set()
        for key in queue:
            if key not in given | passed:
                passed.add(key)
                queue += reached[key][1]
        rows.append([key for key in dict.fromkeys(queue) if key in passed - taken])
        taken |= passed
    left = [f"\n  {key[0].relative_to(tree.root)}: {key[1]}" for key in reached if key not in taken]
    if left:
        fail("the clause leads to what no row leads to:" + "".join(left))
    return rows


# ---- the page

def sections(text):
    """The rows of the page: number, title, question, and the names at which each begins."""
    form = r"^## (\d+)\. (.+)\n\n(.+)\n(?:(?!## ).*\n)*?Begins at: (.+)$"
    return [(number, title, question, re.findall(r"`([^`]+)`", begin))
            for number, title, question, begin in re.findall(form, text, re.M)]


def lines_in(reached, keys):
    """The lines that count of each file, in reading order."""
    lines = {}
    for key in keys:
        lines.setdefault(key[0], set()).update(reached[key][0].lines)
    return lines


def table(reached, rows, heads):
    """The lines of the page's table, and of the count below it."""
    made, total = ["| row | its question | files | lines | so far |", "|---|---|---|---|---|"], 0
    for (number, title, question, _), keys in zip(heads, rows):
        lines = lines_in(reached, keys)
        count = sum(map(len, lines.values()))
        total += count
        made.append(f"| {number}. {title} | {question} | {len(lines)} | {count} | {total} |")
    return [*made, "", f"In all these are {len(reached):,} definitions."]


def table_in(text):
    """The place of the table in the page."""
    found = re.search(r"<!-- sums -->\n(.*?)<!-- end -->", text, re.S)
    if not found:
        fail("the page has no place for the table")
    return found


def differences(text, made):
    """A line for each place at which the page's table isn't what is computed."""
    there = table_in(text)[1].splitlines()
    yield from (f"the page says: {line}" for line in there if line not in made)
    yield from (f"it is:         {line}" for line in made if line not in there)
    if sorted(there) == sorted(made) and there != made:
        yield "the page has another order"


def print_files(tree, reached, keys):
    """Prints the files of a row: how many lines of each count, and how many a file of definitions has."""
    for file, lines in lines_in(reached, keys).items():
        whole = f" of {len(file.read_text().splitlines())}" if file.suffix == ".antt" else ""
        print(f"{file.relative_to(tree.root)}: {len(lines)}{whole}")


def print_row(reached, keys):
    """Prints the definitions of a row, file by file."""
    signal.signal(signal.SIGPIPE, signal.SIG_DFL)
    for file in dict.fromkeys(file for file, _ in keys):
        print(f"\n==== {file}")
        text = file.read_text().split("\n")
        for key in keys:
            if key[0] == file:
                print("", *(text[n] for n in sorted(reached[key][0].lines)), sep="\n")


def main():
    parser = argparse.ArgumentParser(description=__doc__, formatter_class=argparse.RawDescriptionHelpFormatter)
    parser.add_argument("--root", type=pathlib.Path, default=pathlib.Path(__file__).resolve().parent.parent)
    parser.add_argument("--write", action="store_true")
    parser.add_argument("--files", type=int, metavar="ROW")
    parser.add_argument("--read", type=int, metavar="ROW")
    options = parser.parse_args()
    page, tree = options.root / "docs" / "BELIEVE.md", Tree(options.root)
    text, heads, reached = page.read_text(), sections(page.read_text()), closure(tree)
    rows = rows_of(tree, reached, [[root_key(tree, reached, name) for name in begin] for *_, begin in heads])
    if options.files:
        return print_files(tree, reached, rows[options.files - 1])
    if options.read:
        return print_row(reached, rows[options.read - 1])
    made = table(reached, rows, heads)
    if options.write:
        start, end = table_in(text).span(1)
        text = text[:start] + "".join(line + "\n" for line in made) + text[end:]
        page.write_text(text)
    wrong = list(differences(text, made))
    print(*wrong, f"{len(reached)} definitions: the page {'differs' if wrong else 'is right'}", sep="\n")
    return 1 if wrong else 0


if __name__ == "__main__":
    sys.exit(main())
