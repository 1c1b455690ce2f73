#!/usr/bin/env python3
"""Brings the repository's own definitions and lemmas to Rattle's spelling: words in snake case, a dash only between two names.

usage: tools/respell.py [--check] [FOLDER]

FOLDER is the top of a checkout, here where it is left out. It reads which names the files of specs/ and proofs/ define, and writes
each use of them in .antt files, in the ghost parts of .rt files, in must-fail edits and between backticks in pages. A name of the
source, of the library or of a goal keeps its spelling. --check writes nothing, and prints old and new names and what falls together.
"""
import collections
import os
import re
import sys

W = r"[^\s(){}.;,@\"«»\[\]\\`]+"
TOKEN = re.compile(r"--[^\n]*|//[^\n]*|\"(?:[^\"\\\n]|\\.)*\"|" + W)
DEFINED = re.compile(r"(?m)^ *(?:abbrev |unfoldable )*(?:pub )?(?:abbrev |unfoldable )?(?:data |record )?(%s)(?: [({][^\n]*[)}])? :(?=\s)" % W)
SHARED = re.compile(r"(?m)^ *pub (%s(?: %s)*) :(?=\s)" % (W, W))
NO_NAME = {"use", "module", "let", "where", "record", "data", "in", "as", "λ", "→", "="}
# Words of other libraries' lemmas that stand for a name.
NAMES = set("append map length take drop set get_or replicate add sub mul div cons zero suc min max filter reverse".split())


def texts(top, end):
    for folder, dirs, files in os.walk(os.path.join(top, "crates")):
        dirs[:] = sorted(it for it in dirs if it != "out")
        for it in sorted(files):
            if it.endswith(end):
                yield os.path.join(folder, it)


def read(path):
    with open(path, encoding="utf-8") as it:
        return it.read()


def bare(text):
    return re.sub(r"--[^\n]*", "", text)


def snake(word):
    """`editionBy` as `edition_by`; a word that begins with a capital, and what stands behind `ˣ`, stays."""
    if not re.match(r"[a-z]", word):
        return word
    return re.sub(r"(?<=[a-z0-9])([A-Z])(?=[a-z0-9]|$|ˣ|_)", lambda it: "_" + it[1].lower(), word)


def names_of(top):
    """The names that the definitions and lemmas have, and the functions among them that stand in specs/."""
    all_of, functions = set(), set()
    for path in texts(top, ".antt"):
        if os.path.basename(path) == "Proof.antt":
            continue
        text = bare(read(path))
        found = {it[1] for it in DEFINED.finditer(text)} - NO_NAME
        for it in SHARED.finditer(text):
            found |= set(it[1].split())
        all_of |= found
        if "/specs/" in path:
            functions |= found
    return all_of, functions


def fields_of(top):
    """The fields of the records that the files define: what stands below a line with `record` and `where`, further in."""
    out = set()
    for path in texts(top, ".antt"):
        depth = None
        for line in bare(read(path)).split("\n"):
            inner = len(line) - len(line.lstrip())
            if re.match(r" *(pub )?record .* where$", line):
                depth = inner
            elif depth is not None and line.strip():
                if inner <= depth:
                    depth = None
                else:
                    it = SHARED.match(line) or re.match(r" *(%s) :" % W, line)
                    out |= set(it[1].split()) if it else set()
    return out


def table(top):
    all_of, functions = names_of(top)
    known = {snake(it) for it in functions} | NAMES
    out = {}
    for name in sorted(all_of):
        if not re.match(r"[A-Za-z]", name):
            continue
        parts = [snake(it) for it in name.split("-")]
        new, in_specs = parts[0], name in functions
        for part in parts[1:]:
            joins = not in_specs and new in known and part in known and part in NAMES
            new += ("-" if joins else "_") + part
        out[name] = new
    by_new = collections.defaultdict(list)
    for name, new in out.items():
        by_new[new].append(name)
    # Where names fall together, the definition has the name and the lemma gets `_lem`, as Rattle's own lemmas do.
    for new, olds in by_new.items():
        olds.sort(key=lambda it: (it not in functions, "-" in it, it != new))
        for name in olds[1:]:
            out[name] = new + "_lem"
    return {name: new for name, new in out.items() if name != new}


def turned(text, names, fields, path):
    modules = set(re.findall(r"(?m)^(?:pub )?(?:use \S+ as |use \S+\.)([^\s.{]+)$", text))
    ghost_only = path.endswith(".rt")
    page = path.endswith(".md")

    def one(it):
        word = it[0]
        if word.startswith(("--", "//")):
            return re.sub(r"`(%s)`" % W, lambda w: "`%s`" % names.get(w[1], w[1]), word)
        if word.startswith('"') or word not in names:
            return word
        before = text[max(0, it.start() - 200) : it.start()]
        if re.search(r"(?<![\w.])(tie|goal|lts)\.$", before):
            return word
        head = re.search(r"(?:^|[\s(\[{])(%s(?:\.%s)*)\.$|\)\.$" % (W, W), before)
        if head and "-" in word and word not in fields and head[1] not in modules and not (head[1] or "").startswith("Rattle"):
            return word
        if ghost_only and "-" not in word and word == word.lower():
            return word
        return names[word]

    if page:
        return re.sub(r"`([^`\n]*)`", lambda span: "`" + re.sub(W, lambda w: names.get(w[0], w[0]), span[1]) + "`", text)
    return TOKEN.sub(one, text)


def together(top, names):
    """Prints the files in which a new name is one that stands there already."""
    count = 0
    twice = collections.defaultdict(list)
    for old, new in names.items():
        twice[new].append(old)
    all_of, _ = names_of(top)
    for new, olds in sorted(twice.items()):
        if len(olds) > 1 or new in all_of:
            print("together:", new, olds, "also a name already" if new in all_of else "")
    for end in (".antt", ".rt"):
        for path in texts(top, end):
            text = re.sub(r"--[^\n]*|//[^\n]*", "", read(path))
            words = set(re.findall(r"(?<![.\w-])" + W, text))
            for it in sorted(words & set(names)):
                if names[it] in words:
                    count += 1
                    print("look:", path, it, "->", names[it])
    print(count, "places to look at")


def main(argv):
    check = "--check" in argv
    rest = [it for it in argv if not it.startswith("--")]
    top = rest[0] if rest else "."
    names = table(top)
    if check:
        for it in names.items():
            print("%s -> %s" % it)
        together(top, names)
        return
    fields = fields_of(top)
    paths = [*texts(top, ".antt"), *texts(top, ".rt"), *texts(top, ".edit")]
    pages = ["README.md", "docs/PROMISES.md", "docs/DECISIONS.md", "docs/SWEEP.md"]
    paths += [os.path.join(top, it) for it in pages]
    for path in paths:
        text = read(path)
        new = turned(text, names, fields, path)
        if new != text:
            with open(path, "w", encoding="utf-8") as it:
                it.write(new)


if __name__ == "__main__":
    main(sys.argv[1:])
