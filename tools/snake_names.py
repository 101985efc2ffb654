#!/usr/bin/env python3
"""Brings the definitions and lemmas of this repository to one spelling, after the kit's port.py: names in snake case, types and modules in camel case.

    python3 tools/snake_names.py [FOLDER]     once, on the tree that port.py has just written, in FOLDER or here

It reads which names the .antt files declare. A definition `fooBar` and a lemma `foo-bar` both become `foo_bar`; where a lemma would then have the name of a definition it gets `_lem`
behind it. Names that a file takes from the kit's libraries and names of functions, of types' fields and of files stay. It turns the .antt files, and the clauses and ghost imports of the
.rt files; the must-fail edits and the pages are brought over by hand. The map is written to docs/port-names.txt, for the pages.
"""
import collections
import glob
import os
import re
import sys

os.chdir(sys.argv[1] if len(sys.argv) > 1 else os.path.join(os.path.dirname(os.path.abspath(__file__)), ".."))
NAME = re.compile(r"[^\s(){}\[\];:,.⌜⌝⟨⟩\"`|λ↦]+")
DECLARED = re.compile(r"^(\s*)(?:(?:abbrev|unfoldable|pub|data|record|private)\s+)*([^\s:(){}]+)(?:\s*\{ℓ\})?\s*(?:\{[^}]*\}\s*|\([^)]*\)\s*)*:(?=\s)")



def read(path):
    with open(path, encoding="utf-8") as file:
        return file.read()


def write(path, text):
    with open(path, "w", encoding="utf-8") as file:
        file.write(text)


def snake(name):
    name = name.replace("′", "'")
    if re.match(r"[a-z◌μ]", name):
        name = re.sub(r"(?<=[a-z0-9])[A-Z]", lambda m: "_" + m.group(0).lower(), name)
        name = re.sub(r"(?<=-)[A-Z](?=[a-z])", lambda m: m.group(0).lower(), name)
    return name.replace("-", "_")


def module_of(path):
    _, crate, kind, rest = path.split("/", 3)
    return f"Rattle.{crate}.{kind}." + rest[:-5].replace("/", ".")


def uncommented(text):
    return re.sub(r"--[^\n]*", "", text)


def imports(text):
    for m in re.finditer(r"^(?:ghost )?use ([^\s{]+?)\.\{([^}]*)\}", uncommented(text), re.M):
        for item in m.group(2).split(","):
            yield m.group(1), item.split(" as ")[0].strip()


paths = sorted(p for k in ("specs", "proofs") for p in glob.glob(f"crates/*/{k}/**/*.antt", recursive=True))
declared = collections.defaultdict(set)
for path in paths:
    walk = path.endswith("/Proof.antt")
    for line in uncommented(read(path)).split("\n"):
        m = DECLARED.match(line)
        if m and not (walk and not m.group(1)):
            declared[m.group(2)].add(path)
libraries = {item for p in paths for mod, item in imports(read(p)) if not re.match(r"Rattle\.(?!std\b)", mod)}
own = {n for n in declared if n not in libraries}

# ---- lemmas that would fall together with a definition

by_target = collections.defaultdict(set)
for n in own:
    by_target[snake(n)].add(n)


def is_definition(n):
    return any("/specs/" in p for p in declared[n]) or bool(re.search(r"[A-Z]", n))


lemmas = {}
for target, names in by_target.items():
    if len(names) < 2:
        continue
    definitions = {n for n in names if is_definition(n)}
    for n in names - definitions:
        lemmas[n] = target + "_lem"

renamed = {n: lemmas.get(n, snake(n)) for n in own if snake(n) != n}
# Lemmas that are in snake case already: only where their own module is the one meant.
scoped = {n: new for n, new in lemmas.items() if snake(n) == n}
for n in scoped:
    homes = {p for p in declared[n] if not p.endswith("/Proof.antt")}
    mods = {module_of(p) for p in homes}
    for path in paths:
        text = read(path)
        if path in homes or any(mod in mods and item == n for mod, item in imports(text)):
            out = []
            for line in text.split("\n"):
                code, mark, comment = line.partition("--")
                code = re.sub(r"(?<![\w'.◌-])" + re.escape(n) + r"(?![\w'-])", scoped[n], code)
                out.append(code + mark + comment)
            write(path, "\n".join(out))

# ---- everything else


def turned(text, names, fields):
    def one(m):
        word = m.group(0)
        if m.start() and text[m.start() - 1] == "." and word not in fields:
            before = re.search(r"[\w.]+$", text[:m.start()])
            if not (before and before.group(0).startswith("Rattle.") and text[m.end():m.end() + 1] != "."):
                return word
        return names.get(word, word)
    return NAME.sub(one, text)


fields = {n for n in own if any(re.search(r"^\s+" + re.escape(n) + r"\s*:", uncommented(read(p)), re.M) for p in declared[n])}
for path in paths:
    out = []
    for line in read(path).split("\n"):
        code, mark, comment = line.partition("--")
        out.append(turned(code, renamed, fields) + mark + re.sub(r"`([^`]+)`", lambda m: "`" + renamed.get(m.group(1), m.group(1)) + "`", comment))
    text = "\n".join(out)
    text = re.sub(r"◌andThen◌", "◌and_then◌", text)
    text = re.sub(r"(?<=[\s)])andThen(?=[\s(])", "and_then", text)
    write(path, text)

CLAUSE = re.compile(r"\b(requires|ensures)(\s+\w+)?\s*(?=\{)")
for path in sorted(glob.glob("crates/*/src/**/*.rt", recursive=True)):
    text = read(path)
    text = re.sub(r"^ghost use [^;]*;", lambda m: turned(m.group(0), renamed, fields), text, flags=re.M)
    at, out = 0, ""
    while True:
        m = CLAUSE.search(text, at)
        if not m:
            break
        depth, k = 0, m.end()
        while True:
            depth += (text[k] == "{") - (text[k] == "}")
            k += 1
            if depth == 0:
                break
        out += text[at:m.end()] + turned(text[m.end():k], renamed, fields)
        at = k
    write(path, out + text[at:])

# ---- the map, for the pages and for whoever looks an old name up

write("docs/port-names.txt", "".join(f"{old} {new}\n" for old, new in sorted({**renamed, **scoped}.items())))
print(f"{len(renamed)} names respelled, {len(lemmas)} lemmas beside a definition of their name")
for n, new in sorted(lemmas.items()):
    print("  ", n, new)
