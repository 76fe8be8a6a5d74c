#!/usr/bin/env python3
"""Brings the names of this repository's own definitions and lemmas to today's spelling: words in snake case.

usage: spell.py [--dry] [FOLDER]     once, after port.py, at the top of the repository

Definitions and lemmas in camel case or with dashes become snake case (rowSize: row_size, scan-used: scan_used), in crates/,
in the must-fail edits and, between backticks, in the documents. Types, modules, functions of src/, names that C calls, strings,
inputs and outputs keep their names, and so do names of the prover's library and the names that Rattle makes for proofs.
NAMES says what a name becomes where the plain rule would make two names one.
"""
import collections
import glob
import os
import re
import sys

NAMES = {
    "removeFont": "store_without_font",
    "removeCharacter": "store_without_character",
    "fontBlock": "font_block_command",
    "characterBlock": "character_block_command",
}
# Lemmas that port.py already spelled so, and that a definition now would have the name of: by the crates where they are cited.
LEMMAS = {
    "held_by": ("collection",),
    "kept_of": ("stream", "profile", "marlinfold"),
    "closed_at": ("store",),
    "is_digit": ("stream",),
    "step_run": ("pictures",),
    "dot_at": ("turning",),
    "chosen_by": ("marlinfold",),
}

TOKEN = re.compile(r"\"[^\"\n]*\"|[^\s(){}\[\].;,@\"«»\\:λ`]+")
DEFINED = re.compile(
    r"^\s*(?:(?:abbrev|unfoldable|pub|private)\s+)*([^\s(){}:;,.]+)\s*(?:[({][^(){}]*[)}]\s*)*:(?:\s|$)(?!tie\.|goal\.)"
)
ITEM = re.compile(r"^\s*(?:(?:abbrev|unfoldable)\s+)*(?:pub\s+)?(?:record|data)\s+([^\s(){}:;,.]+)")
LIBRARY = re.compile(r"^(?:ghost )?use (?!Rattle\.(\w+)\.)?([\w.+-]+)\.\{([^}]*)\}", re.M)


def crates():
    return sorted(os.path.basename(p) for p in glob.glob("crates/*") if os.path.isdir(p))


def files(*patterns):
    return sorted(p for pattern in patterns for p in glob.glob(pattern, recursive=True) if "/out/" not in p)


def read(path):
    with open(path, encoding="utf-8", newline="") as it:
        return it.read()


def snake(name):
    name = name.replace("-", "_")
    name = re.sub(r"(?<!^)([A-Z])", lambda m: "_" + m.group(1).lower(), name)
    return re.sub(r"_+", "_", name)


def clause(text, at):
    """Whether a place of a .rt file is in a clause or a ghost item: a line that names one, or one that goes on with it."""
    start = text.rfind("\n", 0, at) + 1
    while start > 0:
        end = text.find("\n", start)
        line = text[start : end if end >= 0 else len(text)].strip()
        if re.match(r"(requires|ensures|ghost)\b", line):
            return True
        if line.endswith((";", "{")) or line == "":
            return False
        start = text.rfind("\n", 0, start - 1) + 1
    return False


def imported(text, own_crates):
    """Names that a file takes from the prover's library."""
    out = set()
    for m in re.finditer(r"^(?:ghost )?use ([^\s{;]+?)\.\{([^}]*)\}", text, re.M):
        parts = m.group(1).split(".")
        if parts[0] == "Rattle" and len(parts) > 1 and parts[1] in own_crates:
            continue
        for item in m.group(2).split(","):
            item = item.strip()
            if item:
                out.add(item.split(" as ")[-1].strip())
    return out


def main(argv):
    dry = "--dry" in argv
    argv = [a for a in argv if a != "--dry"]
    if argv:
        os.chdir(argv[0])
    own_crates = set(crates())
    antt = files("crates/*/specs/**/*.antt", "crates/*/proofs/**/*.antt")
    defined = collections.defaultdict(set)
    for path in antt:
        for line in read(path).split("\n"):
            m = DEFINED.match(line)
            if m and not line.lstrip().startswith(("use ", "--")):
                defined[m.group(1)].add(path)
    mapping = {}
    for name in defined:
        lower = re.match(r"^[a-z]\w*[A-Z]", name.replace("-", "")) is not None and name[0].islower()
        if lower or ("-" in name and name[0].islower()):
            mapping[name] = NAMES.get(name, snake(name))
    # variables in camel case, which are defined nowhere: the whole of a crate's text reads alike
    camel = collections.Counter()
    for path in antt + files("crates/*/src/**/*.rt"):
        for t in TOKEN.findall(read(path)):
            if re.fullmatch(r"[a-z][a-z0-9]*(?:[A-Z][a-z0-9]*)+[₀-₉'′]*", t):
                camel[t] += 1
    for name in camel:
        if name not in mapping:
            mapping[name] = NAMES.get(name, snake(name))
    # "A lemma that would have its function's name gets `_lem`"
    taken = {b for a, b in mapping.items() if "-" not in a} | {n for n in defined if n not in mapping}
    for name in mapping:
        if "-" in name and mapping[name] in taken:
            mapping[name] += "_lem"
    # names that port.py respelled in crates/ and left in the edits and the documents
    respelled = {}
    for path in files("crates/*/must-fail/*.edit", "docs/**/*.md", "README.md"):
        for t in TOKEN.findall(read(path)):
            if t not in mapping and re.fullmatch(r"[a-z][a-z0-9]*(?:[A-Z][a-z0-9]*)+", t) and snake(t) in defined:
                respelled[t] = snake(t)
    mapping.update(respelled)
    said = []
    # names that fall together, within what a file can see
    back = collections.defaultdict(set)
    for a, b in mapping.items():
        back[b].add(a)
    for b, names in sorted(back.items()):
        each = set(names) | ({b} if b in defined else set())
        if len(each) > 1:
            said.append(f"together: {sorted(each)} -> {b}: " + " | ".join(f"{n}: {sorted(defined.get(n, {'variable'}))[:3]}" for n in sorted(each)))
    changed = 0
    for path in antt + files("crates/*/src/**/*.rt", "crates/*/must-fail/*.edit", "docs/**/*.md", "README.md", "tests/reading"):
        text = read(path)
        library = imported(text, own_crates)
        here = set(TOKEN.findall(text))
        is_code = path.startswith("crates/")
        crate = path.split("/")[1] if is_code else ""
        lemmas = {n: n + "_lem" for n, where in LEMMAS.items() if crate in where and "/proofs/" in path}

        def turn(m):
            t = m.group(0)
            before = text[m.start() - 1 : m.start()]
            if t in lemmas and before != ".":
                return lemmas[t]
            if t[0] == '"' or t not in mapping or t in library:
                return t
            line = text[text.rfind("\n", 0, m.start()) + 1 : m.start()]
            quoted = line.count("`") % 2 == 1
            comment = re.search(r"(^|\s)--\s", line) if path.endswith(".antt") else re.search(r"//|^#", line)
            if (not is_code or ("-" in t and comment)) and not quoted:
                return t
            if "-" in t and path.endswith(".rt") and not comment and not clause(text, m.start()):
                return t
            if "-" in t and before == "." and not re.search(r"(?:[A-Z]\w*|specs|proofs)\.$", text[max(0, m.start() - 40) : m.start()]):
                return t
            return mapping[t]

        new = TOKEN.sub(turn, text)
        if new != text:
            changed += 1
            for t in here & set(mapping):
                if mapping[t] in here or mapping[t] in library:
                    said.append(f"clash: {path}: {t} -> {mapping[t]} is there already" + (" (library)" if mapping[t] in library else ""))
            if not dry:
                with open(path, "w", encoding="utf-8", newline="") as it:
                    it.write(new)
    # parameters that would hide a word of their function's clauses
    for path in files("crates/*/src/**/*.rt"):
        text = read(path)
        for m in re.finditer(r"\bfn (\w+)(?:<[^>]*>)?\(([^)]*)\)([^{;]*?)(?=\n\s*\{|\n\{)", text, re.S):
            params = set(re.findall(r"(\w+)\s*:", m.group(2)))
            start = m.end(2)
            body = text[start : start + 3000]
            body = body[: body.find("\n{") if "\n{" in body else len(body)]
            for t in set(TOKEN.findall(body)):
                new = mapping.get(t, t)
                if new in params and t != new:
                    said.append(f"hidden: {path}: fn {m.group(1)}: {t} -> {new} is a parameter")
    print("\n".join(said))
    print(f"spell: {len(mapping)} names, {changed} files")


main(sys.argv[1:])
