"""Mutation tests: kills the mutants in `mutants/`, which are small changes of a proved crate.

A mutant of `mutants/CRATE` has the form of the edits that `rt` tries in `crates/CRATE/must-fail`, and four more
lines. `after: TEXT` before an old text means its first occurrence behind TEXT. `refused: PATH` names the function
whose proof has to fail. `gate: yes` has the gate try the mutant. `error: CODE` is explained below.

The gate tries further forms of the wrong bodies in `must-fail`, and one mutant for each public
function of `wl_hub`, `wl_client`, `wlb_hub` and `wlb_client`. With `--gate` the last line is `N passed, M failed`.

`rt` tries one edit after another, each in a check of its crate. The proof of a function uses the contracts of the
functions that it calls, never their code. So this tool copies a crate, changes each function once, and checks only
these functions (`--only`). A mutant is killed by a goal of the contract of the function that it changes. Every other
function keeps its contract, with an empty loop for its body and a hole for its proof.

- The control comes first: the tool checks each copy without its mutants. A function that is not proved there shows
  nothing, so its mutants count as not killed. Both checks share their proofs, so the control costs little.
- The second mutant of a function stands in a twin: the same function under another name, with its clauses and its
  proof. The control proves the twin, too. A function of a trait has no twin; its second mutant comes in a later copy.
- If a mutant spoils a function that another one calls, the tool tries the other again without it.
- The tool tries a mutant of a definition alone. A goal of the function that `refused: PATH` names, or a lemma, has to
  kill it.
- A mutant with a line `error: CODE` must not compile, with this error of the compiler and no other.
- A mutant is not killed if the prover accepts it or cannot read it. The same holds if each unproved goal has no name,
  or cites a name that the mutant took away.

Without CRATE, the tool tries the mutants of all crates, `RT_JOBS` crates at once or one for each processor. It uses the
libraries that `rt ci` has left, or else builds those below a crate first, by `rt lib`. The status is 0 if every mutant was
killed.
"""

import argparse
import concurrent.futures
import contextlib
import dataclasses
import os
import re
import shutil
import subprocess
import sys
import tempfile

import jobs
import rlibs


ROOT = os.path.dirname(os.path.dirname(os.path.abspath(__file__)))
MUTANTS = os.path.join(ROOT, "mutants")
WORKERS = jobs.count()


def text_of(path):
    with open(path, encoding="utf-8") as file:
        return file.read()


FUNCTION = re.compile(r'(?:pub(?:\(\w+\))? )?(?:const )?(?:unsafe )?(?:extern "C" )?fn (\w+)')
# A goal of code with its name, and goals of a function's proof files and of lemma files with the error.
IN_CODE = re.compile(r"note: (?:\./)?(src/\S+?):(\d+):\d+: it is not proved .*?\(`([^`]+)`\)")
IN_PROOF = re.compile(r"(?:\./)?proofs/(\S+)/(?:Answers|Invariants|Proof)\.antt:\d+:\d+: error: (.*)")
IN_LEMMA = re.compile(r"(?:\./)?(proofs/\S+\.antt):\d+:\d+: error: (.*)")
# An error of reading or typing, or a hole of no function: no contract was tried then.
UNREAD = re.compile(r"^(?:\./)?(?:(?:src|specs)/\S+?:\d+:\d+|proofs/\S+/Proof\.antt\S*): error: .*", re.M)
# The error of a proof file that cites a name that the mutant took away.
NAME_LOST = re.compile(r"has no field|is not in scope|has no `|was not admitted")
VERDICT = re.compile(r"^(logic=(proved|not-proved)|only=\d+ (proved|holes)=\d+)", re.M)


@dataclasses.dataclass(frozen=True)
class Function:
    """A function with a body. Lines count from 1; `first` is the line of its comment or first attribute."""

    path: str
    owner: str
    # The trait with its arguments as one word, if the function belongs to an impl of a trait.
    trait: str
    name: str
    first: int
    body: int
    last: int
    # Whether it stands in an impl, a trait or another function.
    is_inside: bool

    def fits(self, folder):
        """Rates how well this folder below proofs/ fits the function; 0 means not at all. A method stands with its type."""
        above, _, last = f"/{folder}".rpartition("/")
        owner = above.rpartition("/")[2]
        # A function that calls itself has a `+` in front. An impl of a trait has the trait's name behind the type's.
        is_home = owner.startswith(self.owner) if self.owner else above.strip("/") == self.module
        if last.removeprefix("+") != self.name or not is_home:
            return 0
        # The prover leaves out the argument's own arguments.
        whole = self.owner + self.trait
        return 2 if owner == whole or owner != self.owner and whole.startswith(owner) else 1

    @property
    def module(self):
        return module_of(self.path)

    @property
    def is_plain(self):
        """Returns whether it is a function of a module, or a method outside of a trait."""
        return not self.trait and self.is_inside == bool(self.owner)

    def is_called_in(self, body):
        return re.search(rf"(?:\bself\.|\bSelf::){self.name}\(" if self.owner else rf"(?<![\w.:]){self.name}\(", body)

    @property
    def key(self):
        return self.path, self.named

    @property
    def named(self):
        """Returns the end of the prover's name for it. A method stands with its type, wherever its impl is."""
        home = [self.owner + self.trait] if self.owner else self.module.split("/")
        return "::".join(filter(None, [*home, self.name]))


def module_of(path):
    return re.sub(r"^src/|/?(?:lib|main|mod)?\.rt$", "", path)


def proved_in(folder, functions):
    """Returns the function whose proof stands in this folder below proofs/, if it is one of these."""
    best = max(functions, key=lambda it: it.fits(folder), default=None)
    return best if best and best.fits(folder) else None


@dataclasses.dataclass(frozen=True)
class Goal:
    """A goal that is not proved: the key of its function (if any), where it stands, and its name."""

    function: tuple
    home: str
    clause: str
    # Whether the goal cites a name that the mutant took away.
    is_lost: bool
    said: str


@dataclasses.dataclass(frozen=True)
class Change:
    """Replaces a text that stands in a file once, or the first one behind a text that stands there once."""

    path: str
    after: str
    old: str
    new: str

    def place_in(self, text, mutant):
        anchor = self.after or self.old
        if text.count(anchor) != 1:
            raise ValueError(f"{mutant}: {self.path} has {anchor!r} {text.count(anchor)} times, not once: update the edit")
        place = text.find(self.old, text.index(self.after))
        if place < 0:
            raise ValueError(f"{mutant}: {self.path} has no {self.old!r} behind {self.after!r}: update the edit")
        return place

    def made_in(self, text, mutant):
        place = self.place_in(text, mutant)
        return text[:place] + self.new + text[place + len(self.old) :]


@dataclasses.dataclass(frozen=True)
class Twin:
    """A second copy of a function under another name: the text that it appends to the file, with the mutant and without."""

    of: Function
    function: Function
    edited: str
    plain: str


# The name of a twin ends with this and a number.
TWIN = "_with_mutant_"


@dataclasses.dataclass
class Mutant:
    crate: str
    name: str
    changes: list
    # The functions whose code it changes; none if it changes anything else, too.
    functions: list = dataclasses.field(default_factory=list)
    # The functions whose proofs have to fail, by the prover's names.
    asked: list = dataclasses.field(default_factory=list)
    # The twin that has the mutant in place of the function itself.
    twin: Twin | None = None
    # Whether the gate tries it.
    is_of_gate: bool = False
    # The compiler error that has to kill it, if it must not reach the prover.
    error: str = ""

    def __str__(self):
        return f"mutant {self.crate}/{self.name}"

    def is_refused_by(self, goal, is_alone):
        """Returns whether this goal can kill it. A goal of a lemma can kill a mutant that is tried alone."""
        if goal.function is None or not self.asked:
            return is_alone
        return goal.function[1] in self.asked


def functions_of(path, text):
    """Returns the functions of a file in the layout of `rt fmt`: each ends at the next brace with its own indentation."""
    lines, found, owner, trait = text.split("\n"), [], "", ""
    for at, line in enumerate(lines):
        indent = line[: len(line) - len(line.lstrip())]
        if re.match(r"(?:unsafe )?impl\b", line):
            target = re.sub(r"^(?:unsafe )?impl(?:<[^{]*?>(?= ))? ", "", line)
            trait, _, owner = target.rpartition(" for ")
            trait, owner = "".join(re.findall(r"\w+", trait.replace("&", "Ref "))), re.match(r"\w*", owner)[0]
        elif line == "}":
            owner = trait = ""
        named = FUNCTION.match(line.lstrip())
        if not named:
            continue
        # The body of a law is empty.
        empty = re.compile(rf"{indent}(\S.*)?{{}}")
        ends = (n for n in range(at, len(lines)) if n > at and lines[n] == f"{indent}}}" or empty.fullmatch(lines[n]))
        opens = (n for n in range(at, len(lines)) if re.match(rf"{indent}\S", lines[n]) and lines[n].endswith(("{", "{}")))
        last, body, first = next(ends, at), next(opens, at), at
        while re.match(r"\s*(?:///|#\[)", lines[first - 1]):
            first -= 1
        if body < last or lines[last].endswith("{}"):
            home = (owner, trait) if indent else ("", "")
            found.append(Function(path, *home, named[1], first + 1, body + 1, last + 1, bool(indent)))
    return found


def read_mutant(crate, name):
    """Reads a mutant, with the functions whose code it changes. Fails if a change does not fit its file."""
    mutant, texts, inside = Mutant(crate, name, []), {}, []
    after = ""
    for line in text_of(os.path.join(MUTANTS, crate, f"{name}.edit")).split("\n"):
        word, _, text = line.partition(": ")
        if word == "file":
            path = text
            file = os.path.join(ROOT, "crates", crate, path)
            if not os.path.isfile(file):
                raise ValueError(f"{mutant}: there is no file crates/{crate}/{path}: update the edit")
            if path not in texts:
                texts[path] = text_of(file)
        elif word == "refused":
            mutant.asked.append(text)
        elif word == "gate":
            mutant.is_of_gate = text == "yes"
        elif word == "error":
            mutant.error = text
        elif word == "after":
            after = text
        elif word == "old":
            old = text
        elif word == "new":
            change = Change(path, after, old, text)
            line_of = texts[path][: change.place_in(texts[path], mutant)].count("\n") + 1
            found = [it for it in functions_of(path, texts[path]) if it.body < line_of < it.last] if path.endswith(".rt") else []
            # A function within another one is that one's code.
            inside.append(min(found, key=lambda it: it.first) if found else None)
            texts[path] = change.made_in(texts[path], mutant)
            mutant.changes.append(change)
            after = ""
    if not mutant.changes:
        raise ValueError(f"{mutant} changes nothing")
    known = {it.named for it in functions_in(crate)} if mutant.asked else set()
    for path in mutant.asked:
        if path not in known:
            raise ValueError(f"{mutant} names no function: {path}")
    if None not in inside and not mutant.error:
        mutant.functions = list(dict.fromkeys(it.key for it in inside))
        mutant.asked = mutant.asked or list(dict.fromkeys(it.named for it in inside))
    return mutant


def source_of(crate, texts):
    """Returns the texts of a crate's source by path, with these texts in place of some files."""
    home = os.path.join(ROOT, "crates", crate)
    files = [os.path.join(at, it) for at, _, names in os.walk(os.path.join(home, "src")) for it in names]
    paths = {os.path.relpath(it, home): it for it in files}
    return {path: texts.get(path) or text_of(file) for path, file in paths.items()}


def functions_in(crate, texts=None):
    """Returns the functions of a crate, with these texts in place of some files."""
    return [it for path, text in source_of(crate, texts or {}).items() for it in functions_of(path, text)]


def mutants_of(crate):
    names = sorted(it.removesuffix(".edit") for it in os.listdir(os.path.join(MUTANTS, crate)))
    return [read_mutant(crate, it) for it in names]


def together(mutants):
    """Groups the mutants. A group changes no function twice, and each old text still stands in its file once."""
    groups = []
    for number, mutant in enumerate(mutants):
        home = next((it for it in groups if mutant.functions and fits_in(mutant, it)), None)
        if home is None and groups and (twin := twin_of(mutant, number)):
            mutant.twin, mutant.functions, mutant.asked = twin, [twin.function.key], [twin.function.named]
            home = next((it for it in groups if fits_in(mutant, it)), None)
        if home is None:
            groups.append([mutant])
        else:
            home.append(mutant)
    return groups


def twin_of(mutant, number):
    """Returns a twin of the only function that a mutant changes, unless it is of a trait or calls itself."""
    if len(mutant.functions) != 1:
        return None
    path, named = mutant.functions[0]
    text = edited = text_of(os.path.join(ROOT, "crates", mutant.crate, path))
    of = next(it for it in functions_of(path, text) if it.named == named)
    lines = text.split("\n")
    begins = sum(len(it) + 1 for it in lines[: of.first - 1])
    behind = sum(len(it) + 1 for it in lines[of.last :])
    for change in mutant.changes:
        edited = change.made_in(edited, mutant)
    name = f"{of.name}{TWIN}{number}"
    head, foot = [], []
    if of.is_inside:
        begin = max((n for n in range(of.first) if re.match(r"(?:unsafe )?impl\b", lines[n])), default=None)
        if begin is None:
            return None
        end = next(n for n in range(begin, of.first) if lines[n].endswith("{"))
        head, foot = lines[begin : end + 1], ["}"]

    def twin_in(whole):
        body = re.sub(rf"\bfn {of.name}\b", f"fn {name}", whole[begins : len(whole) - behind], count=1)
        return None if of.is_called_in(body) else "\n".join(["", *head, body, *foot, ""])

    made = twin_in(edited), twin_in(text)
    return Twin(of, dataclasses.replace(of, name=name), *made) if of.is_plain and all(made) else None


def hollow(crate, texts, asked):
    """Returns the texts of the crate's source and of the holes, by path.

    A function that is not asked for has an empty loop for its body, on as many lines, and a hole for its proof. Functions of
    traits, recursive ones, and those that run at compile time stay as they are.
    """
    source, proofs = source_of(crate, texts), {}
    types = re.compile(r"^(?:pub(?:\(\w+\))? )?(?:struct|enum|union) (\w+)", re.M)
    modules = {name: module_of(path) for path, text in source.items() for name in types.findall(text)}
    for path, text in source.items():
        lines = text.split("\n")
        for of in functions_of(path, text):
            above, body = "\n".join(lines[of.first - 1 : of.body]), "\n".join(lines[of.body : of.last - 1])
            is_kept = of.named in asked or of.is_called_in(body) or re.search(r"#\[cycle|\bconst fn\b|\bfn main\b", above)
            if is_kept or not of.is_plain or not body or of.owner and of.owner not in modules:
                continue
            lines[of.body : of.last - 1] = ["loop {}", *[""] * (of.last - of.body - 2)]
            home = [modules[of.owner], of.owner] if of.owner else [of.module]
            place = [*"/".join(filter(None, home)).split("/"), of.name]
            use = f"use Rattle.{crate}.proofs.{'.'.join(place)}.Statement.{{statement}}"
            hole = f"{use}\n\npub {of.name}_spec : {{M : Type 1}} → statement M\n{of.name}_spec = ?\n"
            proofs[os.path.join("proofs", *place, "Proof.antt")] = hole
        source[path] = "\n".join(lines)
    return texts | source | proofs


def fits_in(mutant, group):
    taken = {it for other in group for it in other.functions}
    if any(not it.functions for it in group) or taken & {*mutant.functions}:
        return False
    with contextlib.suppress(ValueError):
        changed([*group, mutant])
        return True
    return False


def changed(mutants, is_control=False):
    """Returns the texts of the files that these mutants change. The control has their twins alone."""
    texts = {}
    for mutant in mutants:
        for change in mutant.changes:
            if change.path not in texts:
                texts[change.path] = text_of(os.path.join(ROOT, "crates", mutant.crate, change.path))
            if not mutant.twin and not is_control:
                texts[change.path] = change.made_in(texts[change.path], mutant)
    for twin in filter(None, (it.twin for it in mutants)):
        texts[twin.of.path] += twin.plain if is_control else twin.edited
    return texts


def command_of(crate, named):
    """Returns the command that checks a copy of the crate's folder."""
    kit = rlibs.kit_folder()
    words = [f"{kit}/bin/rattle", "check", "--crate-name", crate, "src/lib.rt", "--jobs", "1"]
    words += ["--antt-project", f"{kit}/rattle/logic/antt-project.json", "--logic-built", f"{kit}/logic_built"]
    for name in ["std", *named[crate]]:
        words += ["--extern", f"{name}={rlibs.rlib_of(name) if name in named else f'{kit}/rlibs/{name}.rlib'}"]
    for folder in [f"{kit}/rlibs", *(rlibs.rlib_of(it).parent for it in rlibs.own_below([crate], named))]:
        words += ["-L", f"dependency={folder}"]
    return words


def link_or_copy(one, other):
    """Links a file with a proof, which a check never changes in place, and copies any other file."""
    with contextlib.suppress(OSError):
        if one.endswith(".oantt"):
            return os.link(one, other)
    return shutil.copy2(one, other)


def begin_kept(crate, folder):
    """Makes the folder of kept proofs, beginning with those that `rt check` kept of the crate."""
    kept = os.path.join(ROOT, "crates", crate, "out", "incremental")
    if os.path.isdir(kept):
        shutil.copytree(kept, folder, copy_function=link_or_copy)
    else:
        os.mkdir(folder)


class Trial:
    """Tries the mutants of one crate, a group at a time."""

    def __init__(self, crate, named, groups, is_control):
        self.crate, self.groups, self.is_control = crate, groups, is_control
        self.command = command_of(crate, named)
        self.passed, self.failed = [], []
        # The functions that the control proves, by the functions to check.
        self.controls = {}

    def run(self):
        with tempfile.TemporaryDirectory(prefix="mutants-") as room:
            self.folder, self.kept = os.path.join(room, "crate"), os.path.join(room, "kept")
            begin_kept(self.crate, self.kept)
            for group in self.groups:
                self.judge(group)
        return self

    def asked_of(self, mutants):
        """Returns the functions to check; none means the whole crate."""
        return [it for mutant in mutants for it in mutant.asked] if all(it.asked for it in mutants) else []

    def said_of(self, mutants, is_control=False):
        """Checks the functions that have to kill these mutants, or the whole crate if a mutant names none."""
        texts, asked = changed(mutants, is_control), self.asked_of(mutants)
        said = self.said(mutants, hollow(self.crate, texts, {*asked}), asked) if asked else ""
        if not VERDICT.search(said):
            # For example, no function has such a name.
            said = self.said(mutants, texts, [])
        return said, texts

    def uncontrolled(self, mutants):
        """Returns the mutants whose control fails, by name, each with the reason."""
        asked = self.asked_of(mutants)
        kind = frozenset(asked)
        if kind not in self.controls:
            said, texts = self.said_of(mutants, is_control=True)
            unread = UNREAD.search(said)
            proved = {it[1] for it in self.proved_by(said, texts)}
            if not asked and "logic=proved" not in said:
                unread = unread or [said[-300:]]
            self.controls[kind] = (unread[0] if unread else "", proved)
        why, proved = self.controls[kind]
        return {it.name: why or f"{', '.join({*it.asked} - proved)}" for it in mutants if why or {*it.asked} - proved}

    def said(self, mutants, texts, asked):
        """Checks these functions, or all, in a copy of the crate with these texts, and returns the output."""
        shutil.rmtree(self.folder, ignore_errors=True)
        for part in rlibs.parts_of(self.crate):
            shutil.copytree(part, os.path.join(self.folder, part.name))
        for twin in filter(None, (it.twin for it in mutants)):
            self.copy_proof(twin)
        for path, text in texts.items():
            place = os.path.join(self.folder, path)
            if os.path.basename(path) == "Proof.antt":
                shutil.rmtree(os.path.dirname(place), ignore_errors=True)
            os.makedirs(os.path.dirname(place), exist_ok=True)
            with open(place, "w", encoding="utf-8") as file:
                file.write(text)
        words = ["--allow-holes", *(word for it in asked for word in ("--only", it))] if asked else []
        how = {"stdin": subprocess.DEVNULL, "stdout": subprocess.PIPE, "stderr": subprocess.STDOUT, "errors": "replace"}
        words += ["--incremental", self.kept]
        return subprocess.run([*self.command, *words], cwd=self.folder, check=False, **how).stdout

    def copy_proof(self, twin):
        """Copies the proof files of a function for its twin."""
        top = os.path.join(self.folder, "proofs")
        found = [os.path.join(at, it) for at, names, _ in os.walk(top) for it in names if it == twin.of.name]
        for folder in [it for it in found if twin.of.fits(os.path.relpath(it, top)) == (2 if twin.of.owner else 1)]:
            made = os.path.join(os.path.dirname(folder), twin.function.name)
            shutil.copytree(folder, made)
            old, new = (os.path.relpath(it, top).replace(os.sep, ".") for it in (folder, made))
            for name in os.listdir(made):
                text = text_of(os.path.join(made, name))
                with open(os.path.join(made, name), "w", encoding="utf-8") as file:
                    file.write(text.replace(f".proofs.{old}.", f".proofs.{new}."))

    def judge(self, group):
        if group[0].error:
            self.judge_error(group[0])
            return
        unproved = self.uncontrolled(group)
        for mutant in [it for it in group if it.name in unproved]:
            self.failed.append(f"{mutant}: NO CONTROL: not proved without the mutant: {unproved[mutant.name]}")
        if unproved:
            group = [it for it in group if it.name not in unproved]
            if group:
                self.judge(group)
            return
        if self.is_control:
            self.passed += [f"{mutant}: proved without the mutant: {', '.join(mutant.asked) or 'the crate'}" for mutant in group]
            return
        said, texts = self.said_of(group)
        unread = UNREAD.search(said)
        goals = self.goals_of(said, texts)
        taken = {it for mutant in group for it in mutant.functions}
        is_lost = unread or not VERDICT.search(said)
        told = {mutant.name: [it for it in goals if mutant.is_refused_by(it, len(group) == 1)] for mutant in group}
        # A function that calls a spoilt one is not proved either. Its mutant is tried again without the other.
        proved = self.proved_by(said, texts)
        waiting = [it for it in group if taken and not told[it.name] and not proved & {*it.functions}]
        if len(group) > 1 and (is_lost or waiting == group or any(it.function not in taken for it in goals)):
            # A mutant cannot be read, the prover gave up, or a function fails that no mutant changes: each is tried alone.
            for mutant in group:
                self.judge([mutant])
        elif is_lost or waiting == group:
            why = unread[0] if unread else ("its function has no goal that was tried" if waiting else said[-300:])
            self.failed.append(f"{group[0]}: BAD MUTANT: it did not reach the prover: {why}")
        else:
            for mutant in group:
                if mutant not in waiting:
                    self.tell(mutant, told[mutant.name])
            if waiting:
                self.judge(waiting)

    def judge_error(self, mutant):
        if self.is_control:
            return
        errors = re.findall(r"\berror\[([\w-]+)\]", self.said([mutant], changed([mutant]), []))
        if {*errors} == {mutant.error}:
            self.passed.append(f"{mutant}: killed by the compiler, `{mutant.error}`")
        else:
            self.failed.append(f"{mutant}: SURVIVED: no compiler error `{mutant.error}`: {', '.join(errors) or 'it compiles'}")

    def tell(self, mutant, goals):
        named = [it for it in goals if it.clause and not it.is_lost]
        if named:
            self.passed.append(f"{mutant}: killed by `{named[0].home.partition(TWIN)[0]}`, `{named[0].clause}`")
        elif not goals:
            self.failed.append(f"{mutant}: SURVIVED: what it changes is still proved")
        elif goals[0].is_lost:
            self.failed.append(f"{mutant}: SHOWS NOTHING: `{goals[0].home}` only names what the mutant took away")
        else:
            self.failed.append(f"{mutant}: SHOWS NOTHING: the goal of `{goals[0].home}` has no name: {goals[0].said}")

    def proved_by(self, said, texts):
        """Returns the functions that the prover reports as proved, by file and name."""
        functions = functions_in(self.crate, texts)
        names = re.findall(rf"^fn {self.crate}::(\S+): (?:proved|no holes|depends on a hole)", said, re.M)
        found = [proved_in(it.replace("::", "/"), functions) for it in names]
        return {it.key for it in found if it}

    def goals_of(self, said, texts):
        """Returns the unproved goals in the order of the output."""
        functions, goals = functions_in(self.crate, texts), []
        # A message may go on in the next line, with more indentation.
        for line in re.sub(r"\n {2,}", " ", said).split("\n"):
            in_code, in_proof, in_lemma = IN_CODE.match(line), IN_PROOF.match(line), IN_LEMMA.match(line)
            if in_code:
                at = int(in_code[2])
                of = next((it for it in functions if it.path == in_code[1] and it.first <= at <= it.last), None)
                goals.append(Goal(of and of.key, of.name if of else in_code[1], in_code[3], False, ""))
            elif in_proof or in_lemma:
                told = in_proof or in_lemma
                of = proved_in(told[1], functions) if in_proof else None
                home = told[1].rpartition("/")[2] if in_proof else told[1]
                clause = re.match(r"`([^`]+)`", told[2])
                goals.append(Goal(of and of.key, home, clause[1] if clause else "", bool(NAME_LOST.search(line)), told[2][:200]))
        return goals


def unfit(crates):
    """Returns a message for each mutant that does not fit its file."""
    said = []
    for crate in sorted(crates):
        for name in sorted(os.listdir(os.path.join(MUTANTS, crate))):
            try:
                read_mutant(crate, name.removesuffix(".edit"))
            except ValueError as why:
                said.append(str(why))
    return said


def size(crate):
    """Returns the size of a crate's text. The largest crates are tried first."""
    return sum(file.stat().st_size for folder in rlibs.parts_of(crate) for file in folder.rglob("*"))


def arguments():
    parser = argparse.ArgumentParser(description=__doc__, formatter_class=argparse.RawDescriptionHelpFormatter)
    parser.add_argument("crates", nargs="*", metavar="CRATE", help="a folder of mutants/; all of them by default")
    modes = parser.add_mutually_exclusive_group()
    modes.add_argument("--gate", action="store_true", help="try the mutants of the gate alone")
    modes.add_argument("--control", action="store_true", help="run the control alone: prove every copy without its mutants")
    modes.add_argument("--fit", action="store_true", help="try nothing: print each mutant that does not fit its file")
    given = parser.parse_args()
    for crate in given.crates:
        if not os.path.isdir(os.path.join(MUTANTS, crate)):
            parser.error(f"there is no folder mutants/{crate}")
    return given


def main():
    given = arguments()
    crates = given.crates or sorted(os.listdir(MUTANTS))
    if given.fit:
        said = unfit(crates)
        print("\n".join(said), end="\n" if said else "")
        return 1 if said else 0
    named = rlibs.listed()
    tried = {crate: [it for it in mutants_of(crate) if it.is_of_gate or not given.gate] for crate in crates}
    crates = sorted((crate for crate in crates if tried[crate]), key=size, reverse=True)
    rlibs.build_missing(crates)
    trials = [Trial(crate, named, together(tried[crate]), given.control) for crate in crates]
    passed = failed = 0
    with concurrent.futures.ThreadPoolExecutor(WORKERS) as pool:
        for trial in concurrent.futures.as_completed([pool.submit(it.run) for it in trials]):
            ended = trial.result()
            print("\n".join([*ended.passed, *ended.failed]), flush=True)
            passed, failed = passed + len(ended.passed), failed + len(ended.failed)
    print(f"controls: {passed} proved, {failed} not" if given.control else f"mutants: {passed} killed, {failed} not")
    if given.gate:
        print(f"{passed} passed, {failed} failed")
    return 1 if failed else 0


if __name__ == "__main__":
    sys.exit(main())
