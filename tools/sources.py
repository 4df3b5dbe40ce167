"""The functions in the sources below crates/: the file, contract and body of each, and the meaning of the names in its file."""

import pathlib
import re

TOP = pathlib.Path(__file__).resolve().parent.parent
CRATES = TOP / "crates"
WORD = re.compile(r"[A-Za-z_]\w*")
COMMENT = re.compile(r"^\s*//.*$|(?<=[\s;,{}()])// .*$", re.M)
STRING = re.compile(r'b?"(?:[^"\\]|\\.)*"', re.S)
CHARACTER = re.compile(r"b'(?:[^'\\]|\\.)'|'(?:[(){}\"\[\]]|\\.)'")
BLOCK = re.compile(r"^(?:pub(?:\(\w+\))? )?(?:unsafe )?((?:impl|trait)\b[^{]*?)\s*\{\n.*?^\}", re.M | re.S)
FUNCTION = re.compile(r'^( *)(?:pub(?:\(\w+\))? |const |unsafe |extern "" )*fn (\w+)', re.M)
TYPE = re.compile(r"^(?:pub(?:\(\w+\))? )?(?:struct|enum) (\w+)([^{;]*)\{\n(.*?)^\}", re.M | re.S)
USE = re.compile(r"^(?:pub(?:\(crate\))? )?use ([^;]+);", re.M)


def close_of(text, at):
    """Returns the index after the bracket that closes the bracket at index `at`."""
    depth = 0
    for place in range(at, len(text)):
        depth += (text[place] in "([{") - (text[place] in ")]}")
        if not depth:
            return place + 1
    return len(text)


def receiver_before(text, at):
    """Returns the expression that ends at index `at`, before the dot of a method call."""
    start = at
    while start:
        last = text[start - 1]
        if last in ")]":
            depth, start = 1, start - 1
            while depth and start:
                start -= 1
                depth += (text[start] in ")]") - (text[start] in "([")
        elif last.isalnum() or last in "_.?:":
            start -= 1
        elif last.isspace() and text[start:at].lstrip()[:1] in (".", "?", "") and re.search(r"[\w)\]?]\s+$", text[:start]):
            start = len(text[:start].rstrip())
        else:
            break
    return text[start:at].rpartition("..")[2].strip()


def imports(tree, before=()):
    """Yields each name of a `use` tree, with its path."""
    head, brace, rest = tree.strip().partition("{")
    if not brace:
        path, _, name = (part.strip() for part in head.partition(" as "))
        path = before + tuple(path.split("::"))
        path = path[:-1] if path[-1] == "self" else path
        yield name or path[-1], path
        return
    before += tuple(part for part in head.strip().split("::") if part)
    depth, start, rest = 0, 0, rest[: rest.rfind("}")] + ","
    for place, sign in enumerate(rest):
        depth += (sign == "{") - (sign == "}")
        if sign == "," and not depth:
            if rest[start:place].strip():
                yield from imports(rest[start:place], before)
            start = place + 1


class Function:
    """A function: its file, its type and trait if it has these, and the texts of its generics, parameters, result, contract and body."""

    def __init__(self, file, head, text, owner, trait, generics):
        self.file, self.name, self.owner, self.trait = file, head[2], owner, trait
        start = text.find("(", head.end())
        if text[head.end()] == "<":
            start = re.compile(r">\(").search(text, head.end()).end() - 1
        end = close_of(text, start)
        self.generics, self.parameters = f"{text[head.end() : start]}, {generics}", text[start + 1 : end - 1]
        result = re.match(r"(?: -> ((?:\[[^\]]*\]|[^\n{;\[])*))?", text[end:])
        self.result, tail = (result[1] or "").strip(), text[end + len(result[0].rstrip(" ")) :]
        begin = rf"(?:\A |^{head[1]})\{{"
        whole = re.search(rf"{begin}(.*)\}}$", tail, re.M) or re.search(rf"{begin}\n(.*?)^{head[1]}\}}", tail, re.M | re.S)
        self.contract, self.body = (tail[: whole.start()], whole[1]) if whole else (tail, None)

    def __str__(self):
        return f"{self.owner}::{self.name}" if self.owner else self.name


class File:
    """A source file: its crate and module, the paths of its names, its types with their fields, and its functions."""

    def __init__(self, path):
        parts = path.relative_to(CRATES)
        self.path, self.crate, self.module = str(parts), parts.parts[0], path.stem
        text = COMMENT.sub("", path.read_text(encoding="utf-8"))
        text = STRING.sub('""', CHARACTER.sub("0", text))
        self.words = set(WORD.findall(text))
        self.names = {name: path for tree in USE.findall(text) for name, path in imports(tree)}
        self.types = {name: (generics, fields) for name, generics, fields in TYPE.findall(text)}
        blocks = [(block.start(), block.end(), *owner_of(block[1])) for block in BLOCK.finditer(text)]
        heads = [*FUNCTION.finditer(text)]
        self.functions = []
        for head, after in zip(heads, [*heads[1:], None]):
            inside = [rest for start, end, *rest in blocks if start < head.start() < end]
            part = text[: after.start()] if after else text
            self.functions.append(Function(self, head, part, *(inside[0] if inside else ("", "", ""))))


def owner_of(header):
    """Returns the type and the trait that the header of an `impl` or a `trait` names, and the header itself."""
    trait, _, owner = re.sub(r"^(?:impl|trait)(?:<(?:[^<>]|<[^<>]*>)*>)? ?", "", header).rpartition(" for ")
    names = [WORD.findall(re.sub(r"'\w+|<.*|:.*", "", part, flags=re.S)) for part in (owner, trait)]
    return tuple(each[-1] if each else "" for each in names) + (header,)


def files():
    """Returns all source files, in the order of their paths."""
    return [File(path) for path in sorted(CRATES.glob("*/src/**/*.rt"))]


def crates():
    """Returns each crate of crates.txt with the crates below it, including those of the kit."""
    lines = (TOP / "crates.txt").read_text(encoding="utf-8").splitlines()
    heads = (line.split(":") for line in lines if line and not line.startswith("#"))
    return {head.split()[0]: below.split() for head, below in heads}


def below(crates, crate):
    """Returns a crate and all crates of this repository below it."""
    found, ahead = set(), [crate]
    while ahead:
        found.add(ahead[-1])
        ahead.extend(set(crates[ahead.pop()]) & set(crates) - found)
    return found
