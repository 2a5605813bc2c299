#!/usr/bin/env python3
"""Respells the repository's own names in contracts, definitions, theorems and proofs.

    tools/respell.py            says what it would rename, and what would fall together
    tools/respell.py --write    renames

Definitions, lemmas, fields and constructors of antt get snake case: `writtenForm` becomes `written_form`, and `fit-rest`
becomes `fit_rest`. A dash stays where it joins two names, as in `read-append`: a name is one that specs/ defines, or one of
the library's words. Types keep their capitals. Run once, after the toolchain's own script and before anything else.
"""
import collections
import glob
import re
import sys

LIBRARY = set("""length take drop append map set sets get_or add mul sub div mod pow replicate reverse cond eqb ltb leb suc
nil cons lt le eq ne and or not all any sum bit count_by filter min max""".split())

# Names that would fall together with another: old, new.
CHOSEN = {}
for line in open(__file__.rsplit("/", 1)[0] + "/respell.txt"):
    line = line.split("#")[0].split()
    if line:
        CHOSEN[line[0]] = line[1]

NAME = re.compile(r"[^\s(){}\[\],;.:\"«»⌜⌝`◌?↦λ→∷|=⊢]+")
SIGNATURE = re.compile(r"^(?P<indent> *)(?P<words>(?:abbrev |unfoldable |pub |data |record )*)(?P<name>[^\s(){}.]+) (?::|\()")
OPERATOR = re.compile(r"◌([a-z][a-z-]*[a-z])◌")


def files(*patterns):
    return sorted(f for p in patterns for f in glob.glob(p, recursive=True) if "/out/" not in f)


def defined(paths):
    """Every name that a signature, a field, a constructor or a mixfix operator gives."""
    names = collections.defaultdict(set)
    for path in paths:
        for line in open(path):
            found = SIGNATURE.match(line)
            answer = re.search(r" : (?:\{M : Type 1\} → )?(?:tie\.|statement)", line)
            if found and not answer:
                names[found["name"].strip("◌")].add(path)
            if line.startswith("use "):
                for word in re.findall(r"\bas ([a-z]\w*)", line):
                    names[word].add(path)
            for word in re.findall(r"\blet ([a-z][^\s(){}.]*) [:=]", line):
                names[word].add(path)
    return names


def snake(name):
    return re.sub(r"(?<=[a-z0-9₀-₉'])([A-Z][0-9]*)", lambda m: "_" + m[1].lower(), name)


def dashes(name, known):
    """Dashes stay between two parts that are names; the parts are cut as long as they can be."""
    if "-" not in name or not name[0].isalpha():
        return name
    if name[0].isupper():
        return name
    words = name.split("-")
    parts, at = [], 0
    while at < len(words):
        for end in range(len(words), at, -1):
            part = "_".join(words[at:end])
            if part in known or end == at + 1:
                parts.append(part)
                at = end
                break
    out = parts[0]
    for before, part in zip(parts, parts[1:]):
        out += ("-" if before in known and part in known else "_") + part
    return out


def imported(paths):
    """The names that come from outside the repository: these keep their spelling."""
    own = {path.split("/")[1] for path in glob.glob("crates/*/src")}
    names = set()
    for path in paths:
        for module, items in re.findall(r"\buse ([^\s{;]+)\.\{([^}]*)\}", open(path).read()):
            parts = module.split(".")
            if not (parts[0] == "Rattle" and parts[1] in own):
                names |= {item.split(" as ")[0].strip() for item in items.split(",")}
    return names


def renaming():
    specs = files("crates/*/specs/**/*.antt")
    proofs = files("crates/*/proofs/**/*.antt")
    stated = set()
    for path in specs:
        stated |= set(re.findall(r"(?m)^(?:abbrev |unfoldable |pub )+([^\s(){}.]+) :", open(path).read()))
    every = defined(specs + proofs)
    words = {snake(n).replace("-", "_") for n in stated if n[0].isalpha() and not n[0].isupper() and "-" not in n}
    functions = set()
    for path in files("crates/*/src/**/*.rt"):
        functions |= set(re.findall(r"\bfn ([a-z_0-9]+)", open(path).read()))
    known = words | functions | LIBRARY
    fields = set()
    for path in specs + proofs:
        inside = False
        for line in open(path):
            if re.match(r"^ *(pub )?(record|data) ", line):
                inside = True
            elif line.strip() and not line.startswith(" "):
                inside = False
            found = inside and re.match(r"^ +(?:pub )?([^\s(){}.]+) :", line)
            if found:
                fields.add(found[1].strip("◌"))
    outside = imported(specs + proofs + files("crates/*/src/**/*.rt"))
    new = dict(CHOSEN)
    for name in every:
        if name in outside:
            continue
        if name in CHOSEN:
            new[name] = CHOSEN[name]
            continue
        if not name[0].isalpha() or name[0].isupper():
            continue
        turned = snake(name)
        turned = turned.replace("-", "_") if name in fields or "◌" in name else dashes(turned, known)
        if turned != name:
            new[name] = turned
    return new, every, fields


def turn(text, new, fields):
    """Behind a dot only a field is turned, or what a capitalized module has; the path of a module is left."""
    def one(found):
        name, at = found[0], found.start()
        if at and text[at - 1] == ".":
            before = re.search(r"[^\s(){}\[\],;.]+$", text[max(0, at - 80):at - 1])
            if not (before and before[0][0].isupper() and before[0] != "Rattle") and name not in fields:
                return name
            line = text[text.rfind("\n", 0, at) + 1:at]
            if re.match(r"(ghost )?use [^{]*$", line):
                return name
        return new.get(name, name)
    return NAME.sub(one, text)


def clauses(text, new, fields):
    """Of a source file: its `ghost use` lines and the braces of its clauses and ghost fields."""
    out, at = [], 0
    for found in re.finditer(r"ghost use [^;]*;|\b(?:requires|ensures)\b[^{\n]*\{|\bghost \w+: \{", text):
        if found.start() < at:
            continue
        end = found.end()
        if not found[0].startswith("ghost use"):
            depth = 1
            while depth:
                depth += {"{": 1, "}": -1}.get(text[end], 0)
                end += 1
        out.append(text[at:found.start()])
        out.append(turn(text[found.start():end], new, fields))
        at = end
    return "".join(out) + text[at:]


def spoken(text, new):
    """Of a page or a comment: the names in backquotes."""
    return re.sub(r"`[^`\n]+`", lambda found: NAME.sub(lambda name: new.get(name[0], name[0]), found[0]), text)


def main():
    new, every, fields = renaming()
    falls = collections.defaultdict(set)
    for name in every:
        falls[new.get(name, name)].add(name)
    together = {k: v for k, v in falls.items() if len(v) > 1}
    for name, olds in sorted(together.items()):
        print("falls together:", name, "<-", ", ".join(sorted(f"{o} ({' '.join(sorted(every[o]))})" for o in olds)))
    taken = set()
    for path in files("crates/*/src/**/*.rt"):
        text = re.sub(r"//.*", "", open(path).read())
        taken |= set(re.findall(r"\b([a-z_][a-z_0-9]*):", text)) | set(re.findall(r"\bconst ([A-Z_0-9]+)", text))
    for name, turned in sorted(new.items()):
        if turned in taken and name != turned:
            print("also in src:", name, "->", turned)
    if "--list" in sys.argv:
        for name, turned in sorted(new.items()):
            print(name, turned)
    if "--write" not in sys.argv:
        return
    for path in files("crates/*/specs/**/*.antt", "crates/*/proofs/**/*.antt"):
        old = open(path).read()
        text = turn(old, new, fields)
        if text != old:
            open(path, "w").write(text)
    for path in files("crates/*/src/**/*.rt"):
        old = open(path).read()
        text = spoken(clauses(old, new, fields), new)
        if text != old:
            open(path, "w").write(text)
    for path in files("docs/**/*.md", "README.md"):
        old = open(path).read()
        text = spoken(old, new)
        if text != old:
            open(path, "w").write(text)


main()
