"""The arrays that the sources of drawing declare, found without a compiler.

Read are the functions of ENTRIES in crates/marlinfold_c/src/lib.rt, those of marlinfold's that they call,
the files whose functions these call, and every file of the repository that those name by a path (`use`
lines and paths in the code), and so on. What is not seen here, an array of the kit's libraries, the frames of the archive show.
"""
import os
import re

LIMIT = 128  # W-204: no array above so many bytes, constant tables aside
SIZES = {"u8": 1, "i8": 1, "bool": 1, "u16": 2, "i16": 2, "u32": 4, "i32": 4, "char": 4, "f32": 4,
         "u64": 8, "i64": 8, "usize": 8, "isize": 8, "f64": 8, "u128": 16, "i128": 16}
WIDEST = 16  # bytes of a number whose type is not written beside it
BEFORE_VALUE = {"return", "in", "mut", "else", "match", "if", "as", "break", "while"}


class Unread(Exception):
    """Something in a source that the check cannot judge, so that it must not pass."""


def plain(text):
    """A source without comments, contracts and the text of literals, each `use` of one path."""
    text = re.sub(r"//[^\n]*", "", text)
    text = re.sub(r"\bghost use [^;]*;", "", text)
    text = re.sub(r'b?"(\\.|[^"\\])*"', '""', text)
    text = re.sub(r"b'(\\.|[^'\\])'", "0u8", text)
    clause = re.compile(r"\b(requires|ensures)\*?( \w+)? (?={)")
    while match := clause.search(text):
        text = text[:match.start()] + text[closing(text, match.end()) + 1:]
    return re.sub(r"\buse ([^;]*);", lambda m: " ".join(f"use {path};" for path in single(m[1])), text)


def single(path):
    """The paths of a `use`, one by one, without its braces."""
    at = path.find("{")
    if at < 0:
        return [path.strip()]
    inside = path[at + 1:closing(path, at)]
    return [one for part in parts(inside, ",") if part for one in single(path[:at].strip() + part)]


def closing(text, at):
    """The place of the bracket that closes the one at this place."""
    depth = 0
    for place in range(at, len(text)):
        depth += (text[place] in "([{") - (text[place] in ")]}")
        if depth == 0:
            return place
    raise Unread("a bracket is not closed")


def parts(text, separator):
    """The text split where the separator stands outside all brackets."""
    found, depth, start = [], 0, 0
    for place, sign in enumerate(text):
        depth += (sign in "([{") - (sign in ")]}")
        if depth == 0 and sign == separator:
            found.append(text[start:place].strip())
            start = place + 1
    return found + [text[start:].strip()]


def without_constants(text):
    """The source without its constant and static items, and these as {name: (type, value)}."""
    constants, kept, start = {}, "", 0
    for match in re.finditer(r"\b(?:const|static) (\w+): ", text):
        if match.start() < start:
            continue
        item = parts(text[match.end():], ";")[0]
        kind, value = parts(item, "=")[:2]
        constants[match[1]] = (kind, value)
        kept += text[start:match.start()]
        start = text.index(item, match.end()) + len(item) + 1
    return kept + text[start:], constants


class Sources:
    """The files that drawing reaches, with what they declare."""

    def __init__(self, root):
        self.crates = os.path.join(root, "crates")
        self.names = sorted(os.listdir(self.crates))
        self.texts, self.constants, self.double = {}, {}, set()

    def read(self, crate, file):
        with open(os.path.join(self.crates, crate, "src", file), encoding="utf-8") as source:
            return plain(source.read())

    def file_of(self, crate, path):
        """The file of the longest beginning of a path that is a module, else the crate's root."""
        for count in range(len(path), 0, -1):
            file = os.path.join(*path[:count]) + ".rt"
            if os.path.isfile(os.path.join(self.crates, crate, "src", file)):
                return file
        return "lib.rt"

    def paths(self, crate, text):
        """The files of the repository that a text names."""
        if re.search(r"\b(super|self)::|\buse [^;]*(\bself\b|\*| as )", text):
            raise Unread(f"a path in {crate} that is not spelled from its crate")
        for first, rest in re.findall(r"(?<![\w:])(\w+)((?:::\w+)+)", text):
            owner = crate if first == "crate" else first
            if owner in self.names:
                yield owner, self.file_of(owner, rest.split("::")[1:])

    def reach(self, crate, file):
        """Takes up a file and all that it names."""
        if (crate, file) in self.texts:
            return
        whole = self.read(crate, file)
        text, constants = without_constants(whole)
        self.texts[crate, file] = text
        for name, (kind, value) in constants.items():
            known = self.constants.setdefault(name, (kind, value))
            if known != (kind, value):
                self.double.add(name)
        for owner, named in self.paths(crate, whole):
            self.reach(owner, named)

    def reach_entry(self, crate, entry):
        """Takes up a function of the C interface, those of its file and of marlinfold's that it calls, and all files that they name. Answers whether it is there."""
        root = self.read(crate, "lib.rt")
        match = re.search(rf"\bfn {entry}\b", root)
        key = crate, f"lib.rt, {entry}"
        if not match or key in self.texts:
            return match is not None
        body = root[match.start():closing(root, root.index("{\n", match.end())) + 1]
        self.texts[key] = body
        words = set(re.findall(r"\w+", body))
        used = [path for path in re.findall(r"\buse ([\w:]+);", root) if path.split("::")[-1] in words]
        called = r"(?<![\w:])marlinfold::(\w+)\("
        for owner, file in self.paths(crate, re.sub(called, "", body) + " ".join(used)):
            self.reach(owner, file)
        for name in re.findall(called, body):
            if not self.reach_entry("marlinfold", name):
                raise Unread(f"the function marlinfold::{name}")
        for name in re.findall(r"(?<![\w:])(\w+)\(", body):
            self.reach_entry(crate, name)
        return True

    def number(self, text):
        """The value of a constant expression."""
        text = re.sub(r"\bas \w+", "", text)
        text = re.sub(r"\b(\d[\d_]*)(?:[ui]\d+|[ui]size)?\b", lambda m: m[1].replace("_", ""), text)
        for name in re.findall(r"(?:\w+::)*[A-Za-z]\w*", text):
            last = name.split("::")[-1]
            if last not in self.constants or last in self.double:
                raise Unread(f"the size {text}")
            text = re.sub(rf"(?<![\w:]){name}\b", f"({self.number(self.constants[last][1])})", text)
        if not re.fullmatch(r"[\d\s()+*/-]+", text):
            raise Unread(f"the size {text}")
        return eval(text.replace("/", "//"))  # digits and signs alone

    def size(self, text):
        """The bytes of a type or of a value, where its text says so."""
        if text in SIZES:
            return SIZES[text]
        if text.startswith("["):
            inside = text[1:closing(text, 0)]
            pair = parts(inside, ";")
            if len(pair) == 2:
                return self.size(pair[0]) * self.number(pair[1])
            return sum(self.size(part) for part in parts(inside, ",") if part)
        number = re.fullmatch(r"\d\w*?([ui](?:8|16|32|64|128|size))?", text)
        if number:
            return SIZES[number[1]] if number[1] else WIDEST
        if text in ("true", "false"):
            return 1
        last = text.split("::")[-1]
        if last in self.constants and (last == text or last not in self.double):
            return self.size(self.constants[last][0])
        raise Unread(f"the size of {text}")

    def table(self, value):
        """Whether a value is a constant array by its name."""
        constant = self.constants.get(value.split("::")[-1])
        return constant is not None and constant[0].startswith("[")

    def arrays(self, text):
        """(text, bytes) of every array that a source declares: types that no reference stands before, and values."""
        for match in re.finditer(r"\[", text):
            before = text[:match.start()].rstrip()
            word = re.search(r"\w*$", before)[0]
            if before[-1:] in (")", "]", "#", "!") or (word and word not in BEFORE_VALUE):
                continue  # an index or an attribute
            end = closing(text, match.start())
            array = text[match.start():end + 1]
            first = re.split(r"[;,]", array.strip("[ "))[0].strip(" ]")
            is_type = first in SIZES or re.fullmatch(r"[A-Z]\w*", first) and first not in self.constants
            if is_type and (";" not in array or re.search(r"&\s*(mut)?$", before)):
                continue  # a slice, or an array that is lent
            if not is_type and re.search(r"\blet (mut )?\w+\s*:\s*\[[^=]*\]\s*=$", before):
                continue  # the value of an array whose type was counted
            if re.search(r"\bfrom_[bln]e_bytes\($", before) and ";" not in array:
                yield array, len([part for part in parts(array[1:-1], ",") if part])
                continue  # the library's function takes bytes
            value = re.match(r"\s*=\s*([\w:]+)\s*;", text[end + 1:])
            if is_type and value and self.table(value[1]) and not re.search(r"\bmut \w+\s*:$", before):
                continue  # a constant table by another name
            yield array, self.size(array)
        self.tables_lent_alone(text)

    def tables_lent_alone(self, text):
        """A constant table may get another name, be lent to read, or be indexed: any other use may copy it."""
        tables = {name for name, (kind, _) in self.constants.items() if kind.startswith("[")}
        named = r"\blet (\w+)(?:\s*:[^=]*)? = (?:\w+::)*(\w+);"
        others = {name for name, value in re.findall(named, text) if value in tables}
        rest = re.sub(r"\buse [^;]*;", "", re.sub(named, lambda m: "" if m[2] in tables else m[0], text))
        for name in sorted(tables):
            for match in re.finditer(rf"\b{name}\b", rest):
                if not re.search(r"(?<!&)&\s*(\w+::)*$", rest[:match.start()]) and rest[match.end():match.end() + 1] != "[":
                    raise Unread(f"what becomes of the table {name}")
        for name in sorted(others):
            if re.search(rf"= {name};|&\s*mut {name}\b", rest):
                raise Unread(f"what becomes of the table {name}")
        if re.search(r"\*\s*&", rest):
            raise Unread("a value behind a reference that is made for it")


def check(root, entries):
    """(problems, files read, largest array in bytes) of the sources that the entries reach."""
    sources, problems, largest = Sources(root), [], 0
    try:
        for entry, needed in entries.items():
            if not sources.reach_entry("marlinfold_c", entry) and needed:
                problems.append(f"crates/marlinfold_c/src/lib.rt has no {entry}")
        for (crate, file), text in sorted(sources.texts.items()):
            for array, size in sources.arrays(text):
                largest = max(largest, size)
                if LIMIT < size:
                    problems.append(f"crates/{crate}/src/{file}: {' '.join(array.split())[:60]} has {size} bytes, above {LIMIT}")
    except Unread as unread:
        problems.append(f"not read: {unread}")
    return problems, len({(crate, file.split(",")[0]) for crate, file in sources.texts}), largest
