"""Tries the must-fail edits of a proved crate, as many as possible in one check. Uses the work that the proof of the crate has left in
out/.

A check that refuses a function continues, and names each refused function. Most edits change bodies of functions and no contract, so edits
of different functions are independent. They are applied together, and an edit is refused if its function is refused. An edit is tried by
itself in these cases: the check does not name its function, or refuses it only because it calls another refused function; the edit changes
text outside function bodies; another edit changes the same function.
"""

import re

from rooms import Room
from tree import SOURCES

HEAD = re.compile(r'^( *)(?:pub(?:\([a-z]+\))? )?(?:unsafe )?(?:const )?(?:extern "C" )?fn (\w+)', re.M)
OWNER = re.compile(r"^(?:impl|trait|pub trait)\b(.*)$", re.M)
SAID = re.compile(r"^fn (\S+): (?:not proved|no proof(?!: it calls))", re.M)
# The messages of a check about a source that it can't parse or resolve, which does not count as a refused edit.
UNREADABLE = "is not in scope|has no field|is no name|operand is missing|expected the end"
UNREAD = re.compile(rf"^(?:\./)?(?:src|specs)/\S+:\d+:\d+: error: (?:[^`]|.*(?:{UNREADABLE}))", re.M)
REFUSED, PROVED, BAD, NOTHING = range(4)
SAYS = {
    PROVED: "NOT REFUSED, the crate is still proved with it",
    BAD: "with it the crate can't be read",
    NOTHING: "the check of it had no verdict",
}


class BadEdit(Exception):
    """An edit that can't be applied."""


def replacements(edit):
    """Yields the file, the old text and the new text of each replacement of an edit."""
    file = old = None
    for line in edit.read_text(encoding="utf-8").splitlines():
        if line.startswith("file: "):
            file = line[6:].strip()
        elif line.startswith("old: "):
            old = line[5:]
        elif line.startswith("new:"):
            if not file or not old:
                raise BadEdit("a line 'new:' has no 'file:' or no 'old:' before it")
            yield file, old, line[5:]
            old = None


def owner_of(text, at, file):
    """Returns the part of a function's name before `::`: type and trait if the function is in an impl, otherwise the module of its
    file."""
    open_heads = [it for it in OWNER.finditer(text, 0, at) if "\n}\n" not in text[it.end() : at]]
    if not open_heads:
        return file.rpartition("/")[2][:-3]
    head, before = open_heads[-1][1], None
    while head != before:
        head, before = re.sub(r"<[^<>]*>", "", head), head
    found = re.match(r"\s*(?:([\w:]+)\s+for\s+)?&?\s*(?:mut )?([\w:]+)", head)
    return found[2].split("::")[-1] + (found[1] or "").split("::")[-1] if found else None


def function_at(text, at, file, crate):
    """Returns the last two parts, OWNER::NAME, of the name of the function whose body contains offset `at`, or None if no body does."""
    for head in HEAD.finditer(text, 0, at):
        body = re.compile(rf"^{head[1]}(?:\S.*)?\{{$", re.M).search(text, head.start())
        if body and body.end() < at < text.find(f"\n{head[1]}}}\n", body.end()):
            owner = owner_of(text, head.start(), file)
            return f"{crate if owner in ('lib', 'main') else owner}::{head[2]}"
    return None


def edited(crate, edit, texts):
    """Applies an edit. Returns the new texts, and the functions whose bodies it changes, with None if it changes other text."""
    new, functions = dict(texts), set()
    for file, old, text in replacements(edit):
        if file not in new:
            raise BadEdit(f"there is no file {file}")
        if new[file].count(old) != 1:
            raise BadEdit(f"an old text occurs {new[file].count(old)} times in {file}, not once: {old.strip()}")
        functions.add(function_at(new[file], new[file].index(old), file, crate.name))
        new[file] = new[file].replace(old, text)
    if new == texts:
        raise BadEdit("it changes nothing")
    return new, functions


def texts_of(crate):
    """Returns the texts that an edit may change, by file."""
    paths = [path for part in SOURCES for path in (crate.folder / part).rglob("*") if path.suffix in (".rt", ".antt")]
    return {str(path.relative_to(crate.folder)): path.read_text(encoding="utf-8") for path in paths}


def sorted_out(crate, texts):
    """Returns the edits that can be tried together, each with its functions; the texts with all of these edits; the edits to try by
    themselves; and the reasons why the other edits can't be applied."""
    joined, together, alone, told = texts, {}, [], {}
    for edit in crate.edits:
        try:
            functions = edited(crate, edit, texts)[1]
        except BadEdit as why:
            told[edit] = f"it can't be applied: {why}"
            continue
        if None in functions or any(functions & others for others in together.values()):
            alone.append(edit)
        else:
            together[edit], joined = functions, edited(crate, edit, joined)[0]
    return (together, joined, alone, told) if len(together) > 1 else ({}, texts, [*together, *alone], told)


def checked(room, texts, new):
    """Writes the new texts and checks them. Returns the outcome, and the last two parts of the names of the refused functions."""
    for file in texts:
        if new[file] != texts[file]:
            (room.folder / file).write_text(new[file], encoding="utf-8")
    status, said = room.rt("check", "--jobs", "1")
    if UNREAD.search(said) or (status == 1 and re.search(r"\berror\[", said)):
        return BAD, set()
    if status == 1 and re.search(r"^logic=not-proved", said, re.M):
        return REFUSED, {"::".join(name.split("::")[-2:]) for name in SAID.findall(said)}
    # Status 3: the prover reached a limit, which counts as a refusal that names no function.
    return {0: PROVED, 3: REFUSED}.get(status, NOTHING), set()


def try_edits(crate):
    """Returns a message for each edit that is not refused, and the number of checks."""
    texts, checks = texts_of(crate), 0
    together, joined, alone, told = sorted_out(crate, texts)
    if not together and not alone:
        return told, checks
    with Room(crate, "edits") as room:
        if together:
            checks += 1
            refused = checked(room, texts, joined)[1]
            alone += [edit for edit, functions in together.items() if not functions & refused]
        for edit in alone:
            if checks:
                room.put_sources()
                room.put_work()
            checks += 1
            kind = checked(room, texts, edited(crate, edit, texts)[0])[0]
            if kind != REFUSED:
                told[edit] = SAYS[kind]
    return told, checks
