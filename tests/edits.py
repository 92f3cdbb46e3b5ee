#!/usr/bin/env python3
"""Tries the mutants in must-fail/ and edits/ of the crates: a clause must refuse each wrong function body.

    tests/edits.py [--all] [--jobs N] [--folder FOLDER] [CRATE | CRATE/EDIT ..]
    tests/edits.py --check
    tests/edits.py --gate < OUTPUT

An edit is a file CRATE/edits/NAME.edit or CRATE/must-fail/NAME.edit below crates/. Its first line is 'file: src/lib.rt', or names a file
of specs/ or proofs/. Pairs of lines 'old: TEXT' and 'new: TEXT' follow. 'rt ci' tries the edits of must-fail/, and this script those of
edits/. With --all, the script tries both. An edit that is named, such as mm_txn/rollback_keeps_rows, is tried in either folder.

An edit passes only if a goal stays open. A hand-written answer can fail although the contract accepts the edit, for example if the edit
turns a goal into Unit. So if only answers fail, the script removes these answers and checks again. Then the goal stays open either
because it is false, or because it needs another answer, so the result has the words 'without its answer'. The script prints one of these
results for each edit:

    refused              with the goal that stays open, or the lemma that fails
    refused by answers   failure: the crate is proved without the answers that no longer fit
    refused by names     failure: a proof uses a name that the edit removes, so no clause was tested
    proved               failure: the crate is proved with the edit
    bad                  failure: the edited text does not compile, or the prover cannot read it
    no verdict           failure: the check reached a limit, or stopped for another reason

The script copies crates/, crates.txt and HANDLES to a temporary folder, or to FOLDER, once for each of the N jobs, and changes nothing
else. FOLDER keeps the proofs of the checks, and the results in FOLDER/results.jsonl. A later run with FOLDER tries only edits that failed,
and edits of crates that have changed or use a changed crate. The crates themselves must be proved ('rt ci'): the script checks only the
functions that an edit changes, and then the whole crate if these functions are still proved.

--check only tests that each edit can be applied, in a second. An edit must have only lines that rt reads. Each 'old:' TEXT must occur in
its file exactly once, the texts must change something, and no name may be in both folders. --gate reads the output of 'rt ci', which passes
edits that it could not try, and fails if there are any. The status is 0 only if all edits pass.
"""

import argparse
import hashlib
import json
import os
import queue
import re
import shutil
import subprocess
import sys
import tempfile
from concurrent.futures import ThreadPoolExecutor

TOP = os.path.dirname(os.path.dirname(os.path.abspath(__file__)))
PLACES = ["must-fail", "edits"]
PARTS = ["src", "specs", "proofs"]
NAME = re.compile(r"[A-Za-z0-9_-][A-Za-z0-9_.-]*\.edit")
FILE_OF_A_CRATE = re.compile(r"(src|specs|proofs)(/[\w-][\w.-]*)+")
COMMENTS = ("#", "--", "//")

# The lines of a check's output.
NOT_PROVED = re.compile(r"fn \w+::(\S+): (?:not proved|no proof|could not tell)")
GOAL = re.compile(r"note: `([^`]+)` of (?:\./)?proofs/(\S+)/\w+\.antt must prove: (.*)")
UNPROVED_STEP = re.compile(r"note: ((?:\./)?src/\S+?:\d+):\d+: it is not proved (?:here )?that (.*)")
FAULT = re.compile(r"(?:\./)?((?:src|specs|proofs)/\S+?):\d+:\d+: error: (?:`([^`]*)`: )?(.*)")
NO_NAME = re.compile(r"is not in scope|has no field|has no `|is no name|was not admitted")
UNREADABLE = re.compile(r"is not in scope|has no field|is no name|operand is missing|expected the end|cannot continue")
LIMIT = re.compile(r"antt ran out of (?:stack|the (?:steps|memory))|(?:outgrew the memory limit|stopped at the step limit) \(")
VERDICT = re.compile(r"^(?:only|logic)=", re.M)
NOT_TRIED = re.compile(r"^.*\b(?:BAD EDIT|NOT TRIED)\b.*", re.M)

# Lines of Rust code in rustfmt's layout that determine the names of functions.
FUNCTION = re.compile(r"\s*(?:pub(?:\([^)]*\))? )?(?:const )?(?:unsafe )?(?:extern \"C\" )?fn (\w+)")
INHERENT_IMPL = re.compile(r"impl(?:<.*?>)? (\w+)(?:<.*>)?(?: where .*)?(?: \{)?$")


class Unfit(Exception):
    """An edit cannot be applied."""


# ---- edits and the texts that they change


def folder_of(crate):
    return f"{TOP}/crates/{crate}"


def files_in(crate, place):
    """Returns the names of the files in a crate's edits/ or must-fail/, except notes."""
    folder = f"{folder_of(crate)}/{place}"
    return sorted(name for name in os.listdir(folder) if not name.endswith(".md")) if os.path.isdir(folder) else []


def text_of(path):
    try:
        with open(path, encoding="utf-8") as file:
            return file.read()
    except (OSError, UnicodeDecodeError) as error:
        raise Unfit(f"{os.path.relpath(path, TOP)} can't be read: {getattr(error, 'strerror', None) or error}") from error


def replacements(text):
    """Returns the replacements of an edit: a file's path in the crate, the old text and the new one. Raises Unfit."""
    path, old, found = None, None, []
    for line in text.split("\n"):
        if line.startswith("file: "):
            path = line.removeprefix("file: ").strip()
            if not FILE_OF_A_CRATE.fullmatch(path):
                raise Unfit(f"'file: {path}' names no file below src/, specs/ or proofs/")
        elif line.startswith("old: "):
            if old is not None:
                raise Unfit(f"an 'old:' line is not followed by a 'new:' line: {old.strip()}")
            old = line.removeprefix("old: ")
        elif line.startswith("new:"):
            if not path or not old:
                raise Unfit("a 'new:' line has no 'file:' line or no 'old:' line before it")
            found.append((path, old, line.removeprefix("new:").removeprefix(" ")))
            old = None
        elif line.strip() and not line.startswith(COMMENTS):
            raise Unfit(f"this line begins with none of 'file: ', 'old: ' and 'new:': {line.strip()}")
    if old is not None or not found:
        raise Unfit("it does not end with a pair of an 'old:' and a 'new:' line")
    return found


def module_of(path):
    """Returns the module of a file of src/ as an argument of 'rt check --only', or None for the crate's root."""
    inner = path.removeprefix("src/").removesuffix(".rt").removesuffix("/mod")
    return None if inner in ("lib", "main") else inner.replace("/", "::")


def function_at(path, text, at):
    """Returns the function that contains the offset `at` of a file of src/, or else the file's module, as an argument of 'rt check --only'.
    Returns None for the crate's root."""
    module, kind, name = module_of(path), None, None
    for line in text[: text.find("\n", at)].split("\n"):
        if line.startswith("impl") and (found := INHERENT_IMPL.match(line)):
            kind, name = found[1], None
        elif line.startswith(("impl", "trait", "pub trait")):
            # The checker has its own names for the functions of traits.
            kind, name = False, None
        elif found := FUNCTION.match(line):
            name = found[1]
        elif line.startswith("}"):
            kind = name = None
    if name is None or kind is False:
        return module
    # A method's path begins with the module of its type, which can be another file, and its end is enough.
    return "::".join(part for part in (kind or module, name) if part)


def apply(crate, edit):
    """Returns the new texts of the files that an edit changes, and the functions that it changes. The list of functions is empty if the
    edit changes a file outside src/ or the crate's root. Raises Unfit."""
    before, after, functions = {}, {}, []
    for path, old, new in replacements(text_of(edit)):
        if path not in after:
            before[path] = after[path] = text_of(f"{folder_of(crate)}/{path}")
        times = after[path].count(old)
        if times != 1:
            raise Unfit(f"this 'old:' text occurs in {path} {times} times, not once: {old.strip()}")
        functions.append(function_at(path, after[path], after[path].find(old) + len(old)) if path.startswith("src/") else None)
        after[path] = after[path].replace(old, new)
    if before == after:
        raise Unfit("it changes nothing")
    return after, [] if None in functions else sorted(set(functions))


def fault(crate, place, name):
    """Returns the reason why an edit cannot be applied, or None."""
    path = f"{folder_of(crate)}/{place}/{name}"
    if not NAME.fullmatch(name) or not os.path.isfile(path):
        return "an edit is a file whose name is of letters, digits, _, - and ., and ends in .edit"
    if place == "edits" and name in files_in(crate, "must-fail"):
        return "must-fail/ also has an edit of this name"
    try:
        apply(crate, path)
    except Unfit as why:
        return str(why)
    return None


def can_be_applied(edits):
    """Returns whether all these edits can be applied. Prints the faults, and the number of edits."""
    faults = [(edit, why) for edit in edits if (why := fault(*edit))]
    for edit, why in faults:
        print(f"crates/{'/'.join(edit)}: {why}")
    print(f"{len(edits) - len(faults)} edits can be applied, {len(faults)} can't", flush=True)
    return not faults


# ---- one check and its output


def without_answers(text, names):
    """Returns the text of an Answers.antt without these answers, or None if one of the names is not an answer of the file."""
    kept, found, taken = [], set(), False
    for line in text.split("\n"):
        word = re.match(r"(?:pub )?([^\s:]+)", line)
        # A closing bracket at the left edge ends what the lines before it began.
        if word and not line.startswith(("--", "use ", ")", "]", "}")):
            taken = word[1] in names
            if taken and re.match(rf"pub {re.escape(word[1])} : goal\.", line):
                found.add(word[1])
        if not taken:
            kept.append(line)
    return "\n".join(kept) if found == set(names) else None


class Outcome:
    """The output of a check of an edited crate, by kind of line."""

    def __init__(self, status, said):
        self.status, self.said, lines = status, said, said.split("\n")
        self.functions = [found[1] for line in lines if (found := NOT_PROVED.match(line))]
        self.goals = [f"`{found[1]}` of {found[2].replace('/', '::')}: {found[3]}" for line in lines if (found := GOAL.match(line))]
        self.goals = self.goals or [f"{found[1]}: {found[2]}" for line in lines if (found := UNPROVED_STEP.match(line))]
        self.faults = [found.groups() for line in lines if (found := FAULT.match(line))]
        self.limit = next((line for line in lines if LIMIT.search(line)), None)

    def is_bad(self):
        """Returns why no contract was tried, or None. The reason is that the front end or the prover cannot read the edited text."""
        if self.status == 1 and not VERDICT.search(self.said) and "did not build" not in self.said:
            return next((line for line in self.said.split("\n") if "error" in line), "it does not compile")
        unread = (f"{path}: {words}" for path, name, words in self.faults if path[0] == "s" and (name is None or UNREADABLE.search(words)))
        return next(unread, None)

    def failed_answers(self):
        """Returns the names of the failed answers, by file."""
        found = {}
        for path, name, _ in self.faults:
            if path.endswith("/Answers.antt"):
                found.setdefault(path, set()).add(name)
        return found

    def other_faults(self):
        """Returns the place and the text of each error outside answers."""
        return [(f"{path}: {name or ''}", words) for path, name, words in self.faults if not path.endswith("/Answers.antt")]

    def result(self, has_removed):
        """Returns the result and the reason. `has_removed` is whether answers were removed."""
        if why := self.is_bad():
            return "bad", why
        if self.status == 0:
            return ("refused by answers", "it is proved without them") if has_removed else ("proved", "no clause refuses it")
        if self.goals:
            return "refused", ("without its answer, " if has_removed else "") + self.goals[0]
        if faults := [" ".join(fault) for fault in self.other_faults() if not NO_NAME.search(fault[1])]:
            return "refused", faults[0]
        if self.other_faults():
            return "refused by names", " ".join(self.other_faults()[0])
        return "no verdict", f"status {self.status}: {self.limit or self.said.rstrip().rpartition(chr(10))[2]}"


class Copy:
    """A copy of the crates in which edits are tried, one at a time."""

    def __init__(self, folder):
        self.folder = folder
        os.makedirs(f"{folder}/crates", exist_ok=True)
        for crate in os.listdir(f"{TOP}/crates"):
            for part in PARTS:
                shutil.rmtree(f"{folder}/crates/{crate}/{part}", ignore_errors=True)
                if os.path.isdir(f"{folder_of(crate)}/{part}"):
                    shutil.copytree(f"{folder_of(crate)}/{part}", f"{folder}/crates/{crate}/{part}")
        for name in ["crates.txt", "HANDLES"]:
            shutil.copyfile(f"{TOP}/{name}", f"{folder}/{name}")

    def check(self, crate, functions, texts):
        """Checks functions of a crate, or all functions without `functions`, with `texts` in place of the crate's files. None removes a file."""
        place = f"{self.folder}/crates/{crate}"
        try:
            for path, text in texts.items():
                os.remove(f"{place}/{path}")
                if text is not None:
                    with open(f"{place}/{path}", "w", encoding="utf-8") as file:
                        file.write(text)
            words = ["rt", "check", "--jobs", "1", *(word for name in functions for word in ("--only", name))]
            pipes = {"stdin": subprocess.DEVNULL, "stdout": subprocess.PIPE, "stderr": subprocess.STDOUT}
            done = subprocess.run(words, cwd=place, text=True, errors="replace", check=False, **pipes)
        finally:
            for path in texts:
                shutil.copyfile(f"{folder_of(crate)}/{path}", f"{place}/{path}")
        return Outcome(done.returncode, done.stdout)

    def attempt(self, crate, functions, texts, removed):
        """Checks edited functions. If only answers fail, adds their files without these answers to `removed`, and checks again."""
        while True:
            outcome = self.check(crate, functions, {**texts, **removed})
            failed = {path: names for path, names in outcome.failed_answers().items() if removed.get(path, "") is not None}
            if not failed or outcome.goals or outcome.is_bad() or outcome.other_faults():
                return outcome
            for path, names in failed.items():
                text = {**texts, **removed}.get(path) or text_of(f"{folder_of(crate)}/{path}")
                # All answers are removed if a lemma in their file fails, or if the prover names none.
                removed[path] = without_answers(text, names)

    def result(self, crate, place, name):
        """Tries an edit. Returns the result and the reason."""
        texts, functions = apply(crate, f"{folder_of(crate)}/{place}/{name}")
        removed = {}
        outcome = self.attempt(crate, functions, texts, removed)
        # The effect of the edit may be visible only in callers. Status 2 means that the checker does not find one of the names.
        if functions and outcome.status in (0, 2):
            outcome = self.attempt(crate, [], texts, removed)
        return outcome.result(bool(removed))


# ---- all edits


def crates_below():
    """Returns the crates that each crate of crates.txt uses."""
    lines = [line.partition(":") for line in text_of(f"{TOP}/crates.txt").split("\n") if line and not line.startswith("#")]
    return {head.split()[0]: names.split() for head, _, names in lines}


class Results:
    """The results of earlier runs, in a file with a line for each edit. A hash covers everything that the result depends on."""

    def __init__(self, path):
        self.path, self.known, self.sums, self.below = path, {}, {}, crates_below()
        self.kit = subprocess.run(["rt", "version"], stdout=subprocess.PIPE, check=True).stdout
        if os.path.exists(path):
            with open(path, encoding="utf-8") as file:
                self.known = {line["edit"]: line for line in map(json.loads, file)}

    def sum_of(self, crate):
        """Returns a hash of the files of a crate and of the crates below it, and of the kit's version."""
        if crate not in self.sums:
            total = hashlib.sha256(self.kit)
            for part in PARTS:
                for folder, folders, names in os.walk(f"{folder_of(crate)}/{part}"):
                    folders.sort()
                    for name in sorted(names):
                        total.update(f"{os.path.relpath(folder, TOP)}/{name}\n{text_of(f'{folder}/{name}')}".encode())
            for name in self.below.get(crate, []):
                total.update(f"{name} {self.sum_of(name)}".encode())
            self.sums[crate] = total.hexdigest()
        return self.sums[crate]

    def key(self, crate, place, name):
        total = self.sum_of(crate) + text_of(f"{folder_of(crate)}/{place}/{name}")
        return hashlib.sha256(total.encode()).hexdigest()

    def find(self, edit):
        found = self.known.get("/".join(edit))
        return found if found and found["kind"] == "refused" and found["sum"] == self.key(*edit) else None

    def keep(self, edit, kind, why):
        line = {"edit": "/".join(edit), "sum": self.key(*edit), "kind": kind, "why": why}
        with open(self.path, "a", encoding="utf-8") as file:
            file.write(json.dumps(line) + "\n")


def try_edits(edits, jobs, folder):
    """Tries edits in `jobs` copies, prints the result of each, and returns the status."""
    results, copies, counts = Results(f"{folder}/results.jsonl"), queue.Queue(), {}
    for job in range(jobs):
        copies.put(Copy(f"{folder}/{job}"))

    def attempt(edit):
        if found := results.find(edit):
            return edit, found["kind"], found["why"]
        copy = copies.get()
        try:
            kind, why = copy.result(*edit)
        finally:
            copies.put(copy)
        results.keep(edit, kind, why)
        return edit, kind, why

    with ThreadPoolExecutor(jobs) as pool:
        for edit, kind, why in pool.map(attempt, edits):
            print(f"{'/'.join(edit)}: {kind}: {why[:300]}", flush=True)
            counts[kind] = counts.get(kind, 0) + 1
    print(", ".join(f"{count} {kind}" for kind, count in sorted(counts.items())) or "no edits")
    return int(set(counts) != {"refused"})


def gate(said):
    """Prints the edits that 'rt ci' could not try, and returns the status."""
    lines = NOT_TRIED.findall(said)
    print("\n".join([*lines, f"{len(lines)} edits of must-fail/ could not be tried"]))
    return int(bool(lines))


def chosen(names, places):
    """Returns the named edits, and the edits in `places` of the named crates, or of all crates if `names` is empty."""
    every = [(crate, place, name) for crate in sorted(os.listdir(f"{TOP}/crates")) for place in PLACES for name in files_in(crate, place)]
    found = []
    for name in names:
        crate, _, edit = name.partition("/")
        edit = os.path.basename(edit).removesuffix(".edit") + ".edit" if edit else None
        of_name = [it for it in every if it[0] == crate and (it[2] == edit if edit else it[1] in places)]
        if not of_name:
            sys.exit(f"{name} is neither an edit nor a crate that has edits{'' if len(places) > 1 else ' in edits/'}.")
        found += of_name
    return list(dict.fromkeys(found)) if names else [edit for edit in every if edit[1] in places]


def arguments():
    words = argparse.ArgumentParser(description="Tries the mutants of the crates: a clause must refuse each wrong function body.")
    words.add_argument("names", nargs="*", metavar="CRATE", help="a crate, or CRATE/EDIT; without one, each crate that has edits")
    words.add_argument("--all", action="store_true", help="also try the edits of must-fail/")
    words.add_argument("--jobs", type=int, default=1, metavar="N", help="check N edits at a time")
    words.add_argument("--folder", metavar="FOLDER", help="work in this folder and keep it, so that a later run continues there")
    words.add_argument("--check", action="store_true", help="only test that each edit, in both folders, can be applied")
    words.add_argument("--gate", action="store_true", help="read the output of 'rt ci', and fail if it could not try an edit")
    return words.parse_args()


def main():
    asked = arguments()
    if asked.gate:
        return gate(sys.stdin.read())
    edits = chosen(asked.names, PLACES if asked.all or asked.check else ["edits"])
    if not can_be_applied(edits):
        return 1
    if asked.check:
        return 0
    if not shutil.which("rt"):
        sys.exit("The command rt is missing. It is part of the Rattle kit.")
    if asked.folder:
        return try_edits(edits, asked.jobs, os.path.abspath(asked.folder))
    with tempfile.TemporaryDirectory(prefix="mmdb-edits-") as folder:
        return try_edits(edits, asked.jobs, folder)


if __name__ == "__main__":
    sys.exit(main())
