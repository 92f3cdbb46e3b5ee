#!/usr/bin/env python3
"""Counts the lines of definitions that the contract of a run depends on, which a reader has to understand and trust.

    tests/definitions.py [--list] [--std]

The count starts at the contract of `run` in crates/mmdb_core/src/run_script.rt: its signature and all its clauses. The count follows
citations to definitions of crates/*/specs, from these to others, and to the types and constants of crates/*/src.

- A definition extends from its name to the next one: its signature and cases, a record with its fields, or a data type with its
  constructors. The comments directly above it are part of it. Blank lines and `use` lines do not count.
- A type is its declaration, with the comments and attributes directly above it, and its `impl Model` block, which defines its meaning in
  clauses. A constant counts as a type.
- A word of a definition cites the definition of that name in its file, or the definition that a `use` line imports, also by `as`. A word
  may have a module's name and a dot before it. A constructor or a variant cites its type. An operator is cited if all its parts occur, and
  a `do` block cites the operators that it abbreviates. A variable or field with the name of a definition counts as a citation, so the count
  may be too high but never too low. A type in a declaration is searched by the `use` lines of its file, then in its crate, then in all
  crates below.
- Imports from the toolchain do not count. A name that is imported from a crate of the repository must be found.

Prints a line for each crate and the sum. --list first prints each definition and type, from the lowest crate up, with its number of lines
and its place, and marks definitions that docs/MODEL.md does not name. --std prints the cited names of the toolchain. The exit status is 0
if all names were found and neither sum exceeds its limit.
"""

import collections
import functools
import os
import re
import sys

TOP = os.path.dirname(os.path.dirname(os.path.abspath(__file__)))
START = ("crates/mmdb_core/src/run_script.rt", "run")
# The limits. A commit that raises one explains why readers must trust more definitions.
MOST_LINES_OF_DEFINITIONS = 2040
MOST_LINES_OF_TYPES = 770

IMPORT = re.compile(r"^\s*(?:ghost )?(?:pub )?use\s+([^{};]+?)(?:\.?(?:::)?\{([^}]*)\})?\s*;?\s*$", re.M)
OPENING = re.compile(
    r"(?:(?:abbrev|pub|unfoldable|axiom) +)+(?:(?:record|data) +)?(\S+)|(?:record|data|module) +(\S+)|([^\s(){}:]+)(?: +\{[^}]*\})* +:(?: |$)"
)
NAME_INSIDE = re.compile(r"^\s+(?:(?:abbrev|pub|unfoldable) )*([^\s(){}:]+) :(?: |$)", re.M)
TOKEN = re.compile(r"[^\s(){}\[\],;λ\"]+")
TYPE = r"^(?:pub(?:\([a-z]+\))? )?(?:struct|enum|const|static|trait|type) (?!fn )"

# A definition or a type: `kind` is "definition" or "type", `text` is the counted text, and `names` are the names that cite it.
Thing = collections.namedtuple("Thing", "kind crate file line name names text")


@functools.cache
def read(path):
    with open(os.path.join(TOP, path), encoding="utf-8") as file:
        return file.read()


def is_file(path):
    return os.path.isfile(os.path.join(TOP, path))


@functools.cache
def crates():
    """Returns the crates from the lowest up, and for each the crates that it uses."""
    lines = [line.partition(":") for line in read("crates.txt").splitlines() if not line.startswith("#")]
    left = {head.split()[0]: line.split() for head, _, line in lines if head}
    placed = {}
    while left:
        name = next(name for name, below in left.items() if not any(other in left for other in below))
        placed[name] = left.pop(name)
    return {name: [other for other in below if other in placed] for name, below in placed.items()}


@functools.cache
def below(crate):
    """Returns a crate and all crates below it."""
    return [crate] + sorted({found for other in crates()[crate] for found in below(other)})


def crate_of(path):
    return path.split("/")[1]


# ---- definitions


@functools.cache
def definitions_of(path):
    """Returns the definitions of a file of specs/, by the names that cite them."""
    found, lines, above, is_import = [], None, [], False
    for number, line in enumerate(read(path).splitlines(), 1):
        if not line.strip():
            above = []
        elif re.match(r"(pub )?(use|mod|open) ", line):
            above, is_import = [], True
        elif line[0].isspace() and is_import:
            continue
        elif line.startswith(("--", "infix")):
            above, is_import = above + [line], False
        else:
            opened = None if line[0].isspace() else OPENING.match(line)
            name = opened and next(group for group in opened.groups() if group)
            if name and not (found and name == found[-1][1]):
                lines = []
                found.append((number, name, lines))
            lines += above + [line]
            above, is_import = [], False
    things = {}
    for number, name, lines in found:
        text = "\n".join(lines)
        inside = NAME_INSIDE.findall(text) if re.search(r"^(pub )?(data|module) ", text, re.M) else []
        thing = Thing("definition", crate_of(path), path, number, name, (name, *inside), text)
        things.update((each, thing) for each in thing.names)
    return things


# ---- types and constants


@functools.cache
def types_of(path):
    """Returns the types and constants that a file of src/ declares, by name."""
    lines = read(path).splitlines()
    things = {}
    for at, line in enumerate(lines):
        declared = re.match(TYPE + r"(\w+)", line)
        if not declared:
            continue
        first = at
        while first and re.match(r"///|//|#\[", lines[first - 1]):
            first -= 1
        text = lines[first : end_of(lines, at)]
        model = re.compile(rf"impl(<.*>)? Model for {declared[1]}\b")
        for other, opened in enumerate(lines):
            if model.match(opened):
                text += lines[other : end_of(lines, other)]
        text = "\n".join(each for each in text if each.strip())
        things[declared[1]] = Thing("type", crate_of(path), path, at + 1, declared[1], (declared[1],), text)
    return things


def end_of(lines, at):
    """Returns the index of the line after the declaration that begins at line `at`: after its semicolon or its closing brace."""
    while not re.match(r".*;$|[)}\]]+;?$|.*\}$", lines[at]) or lines[at][0].isspace():
        at += 1
    return at + 1


@functools.cache
def types_in(crate):
    """Returns the types and constants of a crate by name. A name may have several."""
    found = collections.defaultdict(list)
    for folder, _, names in os.walk(os.path.join(TOP, "crates", crate, "src")):
        for name in sorted(names):
            path = os.path.relpath(os.path.join(folder, name), TOP)
            for each, thing in types_of(path).items():
                found[each].append(thing)
    return found


def types_below(crate, name):
    """Returns the types with a name in a crate, or in the crates below if it has none."""
    return types_in(crate).get(name) or [thing for other in below(crate) for thing in types_in(other).get(name, [])]


# ---- citations


class Scope:
    """The meaning of the words of a file or block. `names` maps a word to the definitions or types that it cites, or to its full name in
    the toolchain. `modules` maps a local module name to the module."""

    def __init__(self, crate):
        self.crate, self.names, self.modules, self.faults = crate, {}, {}, []

    def add_imports(self, text, is_ghost):
        """Adds the `use` lines of a text: those of specs/ and ghost ones of src/, or those of the code."""
        for line in IMPORT.finditer(text):
            if "::" in line[0] or (not is_ghost and "ghost use" not in line[0]):
                self.add_code(line[1], line[2])
            else:
                self.add_specs(line[1].strip(), line[2])
        return self

    def add_specs(self, module, names):
        if names is None:
            module, _, alias = module.partition(" as ")
            self.modules[alias or module.split(".")[-1]] = module
            return
        for each in names.split(","):
            name, _, alias = each.strip().partition(" as ")
            self.names[alias or name] = self.meaning(module, name)

    def add_code(self, path, names):
        parts = path.strip().split("::")
        if names is None:
            *parts, names = parts
        for each in names.split(","):
            name, _, alias = each.strip().partition(" as ")
            crate = self.crate if parts and parts[0] == "crate" else parts[0] if parts else name
            if crate not in crates():
                self.names.setdefault(alias or name, f"{'.'.join(parts)}.{name}")
                continue
            file = f"crates/{crate}/src/{'/'.join(parts[1:])}.rt"
            things = [types_of(file)[name]] if is_file(file) and name in types_of(file) else types_below(crate, name)
            if things:
                self.names[alias or name] = things

    def meaning(self, module, name):
        """Returns the definitions or types that a name of a module cites, or the full name if the module belongs to the toolchain."""
        parts = module.split(".")
        if parts[0] != "Rattle" or parts[1] not in crates():
            return f"{module}.{name}"
        found = self.own(parts[1], parts[2:], name)
        if not found:
            self.faults.append(f"{module} has no {name}")
        return found

    def own(self, crate, parts, name):
        """Returns the definitions or types that a name of one of the repository's modules cites. The name is that of a type, of its variants,
        of a constant, or of a definition of specs/."""
        if parts[:2] == ["specs", "declared"]:
            *path, last = parts[2:]
            if last == "TheVariants":
                *path, name = path
            file = f"crates/{crate}/src/{'/'.join(path) or 'lib'}.rt"
            return [types_of(file)[name]] if is_file(file) and name in types_of(file) else []
        file = f"crates/{crate}/{'/'.join(parts)}.antt"
        if is_file(file):
            return [definitions_of(file)[name]] if name in definitions_of(file) else []
        library = f"crates/{crate}/specs/Lib.antt"
        for path in re.findall(r"^pub use Rattle\.(\S+)$", read(library), re.M) if is_file(library) else []:
            if path.split(".")[-1] == parts[-1]:
                return self.own(path.split(".")[0], path.split(".")[1:], name)
        return []

    def cited(self, text):
        """Yields the citations of a text: definitions and types, and full names of the toolchain."""
        text = re.sub(r"\"[^\"]*\"|(--|//).*", " ", text)
        words = set(TOKEN.findall(text))
        parts = words | {part for word in words for part in word.split(".") + re.findall(r"\w+", word)}
        for word in words:
            for alias, name in re.findall(r"([^.]+)\.([^.]+)", word):
                if alias in self.modules:
                    self.names.setdefault(f"{alias}.{name}", self.meaning(self.modules[alias], name))
                    parts.add(f"{alias}.{name}")
        parts |= {"◌>>=◌", "◌>>◌"} if "do" in words else set()
        parts |= {"[]"} if "[]" in text else set()
        for name, meaning in self.names.items():
            pieces = [piece for piece in name.split("◌") if piece]
            if name in parts or ("◌" in name and all(piece in parts for piece in pieces)):
                yield from [meaning] if isinstance(meaning, str) else meaning


@functools.cache
def scope_of(path):
    """Returns the scope of a file of specs/ or src/."""
    scope = Scope(crate_of(path))
    if path.endswith(".antt"):
        scope.add_imports(read(path), is_ghost=True)
        scope.names.update((name, [thing]) for name, thing in definitions_of(path).items())
    else:
        scope.add_imports(re.sub(r"^\s+ghost use.*$", "", read(path), flags=re.M), is_ghost=False)
        scope.names.update((name, [thing]) for name, thing in types_of(path).items())
    return scope


def citations(thing, faults):
    """Returns the citations of a definition or type."""
    scope = scope_of(thing.file)
    found = set(scope.cited(thing.text))
    if thing.kind == "type":
        inner = Scope(thing.crate).add_imports("\n".join(re.findall(r"^\s+ghost use.*$", thing.text, re.M)), is_ghost=False)
        text = re.sub(r"^\s+ghost use.*$", "", thing.text, flags=re.M)
        found = set(scope.cited(text)) | set(inner.cited(text))
        # A type that no `use` line imports, for example one with a path.
        for word in set(re.findall(r"\b[A-Z]\w*\b", re.sub(r"//.*", "", text))) - set(scope.names) - set(inner.names):
            found |= set(types_below(thing.crate, word))
        faults += inner.faults
    faults += scope.faults
    return found - {thing}


def start():
    """Returns the contract, which does not count itself."""
    path, name = START
    header = re.search(rf"^pub fn {name}\b.*?^\{{$", read(path), re.M | re.S)
    return Thing("contract", crate_of(path), path, 0, name, (), header[0].replace("->", " "))


def followed():
    """Returns the definitions and types that the contract cites, directly or not, the cited names of the toolchain, and the names that
    were not found."""
    first, faults, names = start(), [], set()
    seen, left = set(), [first]
    while left:
        for cited in citations(left.pop(), faults):
            if isinstance(cited, str):
                names.add(cited)
            elif cited not in seen:
                seen.add(cited)
                left.append(cited)
    return seen, names, sorted(set(faults))


# ---- output


def lines_in(thing):
    return sum(1 for line in thing.text.splitlines() if line.strip())


def words_of_the_model():
    """Returns the words between backticks in docs/MODEL.md."""
    return {word for span in re.findall(r"`([^`]+)`", read("docs/MODEL.md")) for word in re.findall(r"[^\s(){}\[\],.;:]+", span)}


def print_list(things):
    named = words_of_the_model()
    for crate in crates():
        for thing in sorted((thing for thing in things if thing.crate == crate), key=lambda thing: (thing.kind, thing.file, thing.line)):
            is_told = thing.kind == "type" or thing.name.strip("◌") in named
            model = "" if is_told else "   not in MODEL.md"
            print(f"{lines_in(thing):5}  {thing.kind:10}  {thing.file}:{thing.line}: {thing.name}{model}")
    print()


def print_table(things):
    print(f"{'':16}{'definitions':>12}{'lines':>8}{'types':>10}{'lines':>8}")
    counts = {kind: collections.defaultdict(list) for kind in ["definition", "type"]}
    for thing in things:
        counts[thing.kind][thing.crate].append(lines_in(thing))
        counts[thing.kind]["in all"].append(lines_in(thing))
    for crate in [*crates(), "in all"]:
        some, types = counts["definition"][crate], counts["type"][crate]
        if some or types:
            print(f"{crate:16}{len(some):12}{sum(some):8}{len(types):10}{sum(types):8}")
    return sum(counts["definition"]["in all"]), sum(counts["type"]["in all"])


def main():
    things, names, faults = followed()
    if "--list" in sys.argv:
        print_list(things)
    if "--std" in sys.argv:
        print("\n".join(sorted(names)), end="\n\n")
    definitions, types = print_table(things)
    checks = [
        (not faults, "not found: " + "; ".join(faults)),
        (definitions <= MOST_LINES_OF_DEFINITIONS, f"the definitions have more than {MOST_LINES_OF_DEFINITIONS} lines"),
        (types <= MOST_LINES_OF_TYPES, f"the types have more than {MOST_LINES_OF_TYPES} lines"),
    ]
    for holds, said in checks:
        if not holds:
            print(f"failed: {said}")
    failed = sum(1 for holds, _ in checks if not holds)
    print(f"{len(checks) - failed} passed, {failed} failed")
    return 1 if failed else 0


if __name__ == "__main__":
    sys.exit(main())
