#!/usr/bin/env python3
"""Finds broken links in the documents, and code words that the repository does not have.

    tests/documents.py [FILE ...]

Without arguments it reads README.md, CONTRIBUTING.md, CHANGELOG.md, docs/*.md, crates/*/README.md, tests/README.md, clients/*/*.md and
replica/*.md.

A relative link must lead to an existing file or folder, and its anchor to a heading of that file. An anchor follows GitHub's rule: lower
case, no punctuation, a hyphen for each space, and a number at the end for a repeated heading.

A code word is the text between backticks on a line, outside fenced blocks. The first rule that fits its form applies:

- Only signs and numbers, such as `<=` or `-5`, or an absolute path, such as `/dev/null`: not checked.
- A shell command, by its first word (SHELL): its words that begin with a folder of the repository must be paths.
- A line of the command language or a part of one. Such a text begins with a keyword of mm_lang in capitals. Or it consists of keywords,
  names, numbers, texts and symbols of the language, and contains a keyword or a comparison. Not checked, except that a single word must
  occur in the code.
- `error` and a number: mm_value must have this refusal, and any words after the number must be its text.
- A path, if it contains a slash or has a known file ending: the path of a file or folder of the repository must end with it. `*` and a
  word in capitals, as in `crates/NAME/edits`, match any name. A folder out/ contains build products, so only the folder that contains it
  is checked. Arguments may follow the path.
- `Type::name`: one file of the code must contain both words, and `fn name` if the type is the repository's and the name is in lower
  case. A crate may take the type's place.
- Any other text: each identifier must be a whole word of the code, or of a line of the command language in the same document. An example
  is the name of a table in a document. The placeholders NUMBER, NAME, CRATE and FILE are allowed.

The code consists of src/, specs/, proofs/, edits/ and must-fail/ of the crates, without comments. The folders bench/, clients/, include/,
replica/, tests/ and tools/, the programs of examples/, and the names of all these files and folders are also code. Documents and the
programs that check the repository itself (NO_CODE) are not.

Code words next to a path, as in "`Order.antt`: `value_cmp`, `row_cmp`" or "`value_cmp` in `Order.antt`", must occur in a file with that
path. If the heading above names a crate and the path does not, the file must be in a crate of the heading or the line.

A line of a fenced block that begins with a shell command or a folder of the repository is checked like a shell command.
"""

import collections
import functools
import glob
import os
import re
import sys

TOP = os.path.dirname(os.path.dirname(os.path.abspath(__file__)))
DOCUMENTS = ["README.md", "CONTRIBUTING.md", "CHANGELOG.md", "docs/*.md", "crates/*/README.md", "tests/README.md", "clients/*/*.md"]
DOCUMENTS += ["replica/*.md"]
CODE = re.compile(r"crates/[^/]+/(src|specs|proofs|edits|must-fail)/|(bench|clients|include|replica|tests|tools)/|examples/.*\.(c|py|rs)$")
NO_CODE = {"tests/documents.py", "tests/definitions.py", "tests/form.py"}
COMMENTS = {".rt": r"//.*", ".rs": r"//.*", ".antt": r"--.*"}
FOLDERS = ("bench/", "clients/", "crates/", "docs/", "examples/", "include/", "replica/", "tests/", "tools/")
SHELL = {"apt-get", "bash", "cargo", "cat", "cc", "cd", "curl", "git", "make", "python3", "rt", "rustc", "sh", "ulimit", "valgrind"}
ENDINGS = (".antt", ".c", ".edit", ".in", ".md", ".mmdb", ".out", ".py", ".rs", ".rt", ".toml", ".txt", ".yml")
PLACEHOLDERS = {"NUMBER", "NAME", "CRATE", "FILE"}
# Exceptions to all rules, with their reasons.
ALLOWED = {
    r"rattle-kit-\w+( logic \w+)?": "the name of a toolchain",
    r"shrink_to_fit": "a method of the standard library that a document names because the program does not use it",
    r"MALLOC_TRIM_THRESHOLD_": "a variable of the C library, set for a measurement",
}

WORD = re.compile(r"[A-Za-z_][A-Za-z0-9_]*")
SPAN = re.compile(r"(`+)(.+?)\1(?!`)")
LINK = re.compile(r"\]\(\s*<?([^)\s>]+)>?(?:\s+\"[^\"]*\")?\s*\)|^\s*\[[^\]]+\]:\s*(\S+)")
# A token of the command language: a word, a number, a text, or a symbol; two dots are an ellipsis.
TOKEN = re.compile(r"\s+|[A-Za-z_][A-Za-z0-9_]*|\d+|'(?:[^']|'')*'|<=|>=|\.\.|[<>=(),.+-]")
WORDS = r"(`[^`]+`(?:(?:, | and |, and )`[^`]+`)*)"
BEHIND_PATH, BEFORE_PATH = re.compile(rf"`([^`]+)`: {WORDS}"), re.compile(rf"{WORDS} (?:in|of) `([^`]+)`")


def read(path):
    with open(os.path.join(TOP, path), encoding="utf-8", errors="replace") as file:
        return file.read()


@functools.cache
def files():
    """Returns the files of the repository, without build products."""
    found = []
    for folder, folders, names in os.walk(TOP):
        folders[:] = sorted(name for name in folders if name not in (".git", "out", "__pycache__"))
        found += [os.path.relpath(os.path.join(folder, name), TOP) for name in sorted(names)]
    return found


@functools.cache
def files_by_end():
    """Returns, for each suffix of a file's or folder's path, the files with this suffix or in such a folder."""
    found = collections.defaultdict(set)
    for file in files():
        parts = file.split("/")
        for end in range(1, len(parts) + 1):
            for start in range(end):
                found["/".join(parts[start:end])].add(file)
    return found


@functools.cache
def words_by_file():
    """Returns the words of each file of the code and of its path, and `fn NAME` or `struct NAME` for each declaration."""
    found = {}
    for path in files():
        if CODE.match(path) and path not in NO_CODE and not path.endswith(".md"):
            text = re.sub(COMMENTS.get(os.path.splitext(path)[1], r"(?!)"), "", read(path))
            found[path] = frozenset(WORD.findall(text) + WORD.findall(path) + re.findall(r"\b(?:fn|struct|enum|trait) \w+", text))
    return found


@functools.cache
def all_words():
    return frozenset().union(*words_by_file().values())


@functools.cache
def keywords():
    """Returns the keywords of the command language."""
    return frozenset(re.findall(r'=> b"([A-Z]+)"', read("crates/mm_lang/src/read/keyword.rt")))


@functools.cache
def refusals():
    """Returns the text of each refusal, by its number."""
    text = read("crates/mm_value/specs/Refusals.antt")
    numbers = dict(re.findall(r"^refusal_number (\w+) = (\d+)$", text, re.M))
    return {numbers[name]: said for name, said in re.findall(r'^refusal_text (\w+) = codes "([^"]+)"$', text, re.M)}


@functools.cache
def files_of(path):
    """Returns the files with a path or in the folder with that path."""
    made = re.match(r"(?:(.*?)/)?out(/|$)", path)
    path = (made[1] if made and made[1] else path).rstrip("/").removeprefix("./")
    pattern = re.sub(r"\b[A-Z][A-Z_]*\b(?!\.md)", "*", path)
    if "*" not in pattern:
        return files_by_end().get(path, set())
    fits = re.compile(re.escape(pattern).replace(r"\*", "[^/]*")).fullmatch
    return set().union(*(found for end, found in files_by_end().items() if fits(end)))


def is_path(word):
    return word in files() or bool(re.fullmatch(r"[\w.*/+-]+", word)) and ("/" in word or word.endswith(ENDINGS)) and bool(WORD.search(word))


def path_fault(path):
    """Returns the fault of a path, or None."""
    is_made = path.rstrip("/") == "out"
    return None if path.startswith("/") or is_made or path in files() or files_of(path) else f"{path} does not exist"


def shell_fault(words):
    """Returns the first fault of a shell command's words that begin with a folder of the repository, or None."""
    faults = (path_fault(word) for word in words if word.startswith(FOLDERS))
    return next((fault for fault in faults if fault), None)


def is_of_language(span):
    """Returns whether a code word begins with a keyword in capitals, or consists of tokens and contains a keyword or a comparison."""
    if span in keywords():
        return False
    tokens = TOKEN.findall(span)
    return span.split()[0] in keywords() or (
        "".join(tokens) == span and len(tokens) > 1 and any(token in keywords() or token in ("<", "<=", "=", ">=", ">") for token in tokens)
    )


@functools.cache
def names_of_examples(document):
    """Returns the words of a document's lines of the command language."""
    spans = [span[2].strip() for _, line in lines_of(document, fenced=False) for span in SPAN.finditer(line)]
    return frozenset(word for span in spans if is_of_language(span) for word in WORD.findall(span))


def fault_of(document, span):
    """Returns the fault of a code word, or None."""
    if not WORD.search(span) or any(re.fullmatch(allowed, span) for allowed in ALLOWED):
        return None
    words = span.split()
    if words[0] in SHELL:
        return shell_fault(words)
    if is_of_language(span):
        return None
    refusal = re.fullmatch(r"error (\d+)(?: ([a-z ]+))?", span)
    if refusal:
        said = refusals().get(refusal[1])
        return None if said and refusal[2] in (None, said) else "no refusal has this number or text"
    if is_path(words[0]):
        return path_fault(words[0]) or shell_fault(words[1:])
    if re.fullmatch(r"\w+(::\w+)+(\(\))?", span):
        *owners, name = WORD.findall(span)
        is_ours = owners[-1] in files_by_end() or any(f"{kind} {owners[-1]}" in all_words() for kind in ["struct", "enum", "trait"])
        wanted = {*owners, f"fn {name}" if is_ours and name.islower() else name}
        return None if any(wanted <= found for found in words_by_file().values()) else "no file of the code contains these words"
    known = [all_words(), names_of_examples(document), PLACEHOLDERS]
    missing = [word for word in WORD.findall(re.sub(r"'[^']*'", "", span)) if not any(word in words for words in known)]
    return f"the code does not contain {', '.join(missing)}" if missing else None


def crates_in(line):
    """Returns the crates that a line of a document names."""
    return [span for _, span in SPAN.findall(line) if os.path.isdir(os.path.join(TOP, "crates", span))]


def fault_beside(path, crates, word):
    """Returns the fault of a code word next to a path, or None."""
    if is_path(word) or is_of_language(word):
        return None
    files = files_of(path)
    if crates and path.split("/")[0] in ("src", "specs", "proofs", os.path.basename(path)):
        files = [file for file in files if file.split("/")[1] in crates]
    wanted = set(WORD.findall(word))
    return None if any(wanted <= set(WORD.findall(read(file))) for file in files) else f"{path} does not contain it"


def anchors_of(path):
    """Returns the anchors of a document's headings."""
    seen, anchors = {}, set()
    for _, line in lines_of(path, fenced=False):
        heading = re.match(r"#{1,6}\s+(.*?)\s*#*$", line)
        if heading:
            text = re.sub(r"\[([^\]]*)\]\([^)]*\)", r"\1", heading[1]).lower()
            anchor = re.sub(r"[^\w\- ]", "", text).replace(" ", "-")
            count = seen[anchor] = seen.get(anchor, -1) + 1
            anchors.add(f"{anchor}-{count}" if count else anchor)
    return anchors


def link_fault(document, link):
    """Returns the fault of a link, or None."""
    if re.match(r"[a-z]+:", link):
        return None
    path, _, anchor = link.partition("#")
    target = os.path.normpath(os.path.join(os.path.dirname(document), path)) if path else document
    if not os.path.exists(os.path.join(TOP, target)):
        return "no such file"
    return "no such heading" if anchor and anchor not in anchors_of(target) else None


def lines_of(path, fenced):
    """Yields the lines of a document inside or outside its fenced blocks, with their numbers."""
    fence = None
    for number, line in enumerate(read(path).splitlines(), 1):
        mark = re.match(r"\s*(```+|~~~+)", line)
        if mark and (fence is None or line.strip() == fence):
            fence = mark[1] if fence is None else None
        elif (fence is not None) == fenced:
            yield number, line


def checks_of(document):
    """Yields all checks of a document: line number, text, and the fault or None."""
    above = []
    for number, line in lines_of(document, fenced=False):
        if line.startswith("#"):
            above = crates_in(line)
        for link in LINK.finditer(SPAN.sub("", line)):
            yield number, link[1] or link[2], link_fault(document, link[1] or link[2])
        for span in SPAN.finditer(line):
            yield number, span[2], fault_of(document, span[2].strip())
        beside = BEHIND_PATH.findall(line) + [(path, words) for words, path in BEFORE_PATH.findall(line)]
        for path, words in beside:
            if is_path(path) and not path_fault(path):
                for word in re.findall(r"`([^`]+)`", words):
                    yield number, word, fault_beside(path, above and above + crates_in(line), word)
    for number, line in lines_of(document, fenced=True):
        words = line.strip().removeprefix("$ ").split()
        if words and (words[0] in SHELL or words[0].startswith(FOLDERS)):
            yield number, line.strip(), shell_fault(words)


def main():
    documents = [os.path.relpath(path, TOP) for path in sys.argv[1:]]
    documents = documents or sorted(path for pattern in DOCUMENTS for path in glob.glob(pattern, root_dir=TOP))
    passed = failed = 0
    for document in documents:
        for number, words, fault in checks_of(document):
            if fault:
                print(f"{document}:{number}: `{words}`: {fault}")
            passed, failed = passed + (not fault), failed + bool(fault)
    print(f"{passed} passed, {failed} failed")
    return 1 if failed else 0


if __name__ == "__main__":
    sys.exit(main())
