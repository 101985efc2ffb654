"""Reads the sources of the repository, for the scripts beside it: the crates of crates.txt, the public functions and types of `.rt` files, and the declarations
of `.antt` files. Nothing here knows a crate by its name."""
import os
import re


def read(path):
    with open(path, encoding="utf-8") as file:
        return file.read()


def squeeze(text):
    return " ".join(text.split())


# ---- crates

def crates(root):
    """Each crate that crates.txt lists, with the crates that it uses. Before the colon a line may say more of the crate, as `board_c staticlib: board`."""
    used = {}
    for line in read(os.path.join(root, "crates.txt")).split("\n"):
        name, _, uses = line.split("#")[0].partition(":")
        if name.strip():
            used[name.split()[0]] = re.findall(r"[\w/-]+", uses)
    return used


def is_library(root, crate):
    return os.path.exists(os.path.join(root, "crates", crate, "src", "lib.rt"))


def reached(used, names):
    """The crates of the list that these use, and the crates that those use."""
    seen, todo = set(), [d for n in names for d in used[n]]
    while todo:
        name = todo.pop()
        if name in used and name not in seen:
            seen.add(name)
            todo += used[name]
    return seen


def files(root, below, ending):
    """The files under a folder of the repository, as paths from its top, but for those that `rt` keeps in a crate's out/."""
    found = []
    for folder, inner, names in os.walk(os.path.join(root, below)):
        inner[:] = [n for n in inner if not re.match(r"crates/[^/]+/out$", os.path.relpath(os.path.join(folder, n), root))]
        found += [os.path.relpath(os.path.join(folder, n), root) for n in names if n.endswith(ending)]
    return sorted(found)


# ---- .rt files

def without_comments(text):
    """The text with comments, and what stands in strings, blanked out; every character keeps its place."""
    out, i = list(text), 0

    def blank(a, b):
        for k in range(a, b):
            if out[k] != "\n":
                out[k] = " "
    while i < len(text):
        two = text[i:i + 2]
        if two == "//":
            end = text.find("\n", i)
            end = len(text) if end < 0 else end
            blank(i, end)
            i = end
        elif two == "/*":
            depth, end = 1, i + 2
            while end < len(text) and depth:
                if text.startswith("/*", end):
                    depth, end = depth + 1, end + 2
                elif text.startswith("*/", end):
                    depth, end = depth - 1, end + 2
                else:
                    end += 1
            blank(i, end)
            i = end
        elif text[i] == '"':
            end = i + 1
            while end < len(text) and text[end] != '"':
                end += 2 if text[end] == "\\" else 1
            blank(i + 1, end)
            i = end + 1
        else:
            i += 1
    return "".join(out)


def matching(text, at, left, right):
    """The place behind the bracket that closes the one at this place."""
    depth = 0
    for k in range(at, len(text)):
        depth += (text[k] == left) - (text[k] == right)
        if depth == 0:
            return k + 1
    raise ValueError(f"a {left} at {at} is never closed")


class Function:
    """A function: its whole name, file, line, whether it is public and for C, the public trait that declares it (or nothing), its type parameters, its clauses (`requires` or `ensures`, the
    clause's own name or nothing, and what stands in braces), and the lines of its head."""


def angles(text, at):
    """The place behind the `>` that closes the `<` at this place; the arrow `->` closes nothing."""
    depth = 0
    for k in range(at, len(text)):
        depth += (text[k] == "<") - (text[k] == ">" and text[k - 1] != "-")
        if depth == 0:
            return k + 1
    raise ValueError(f"a < at {at} is never closed")


def type_name(text):
    """The name of a type, without its path, reference and parameters; what has none, as a tuple, stands as it is."""
    bare = re.sub(r"^(?:&\s*(?:'\w+\s+)?(?:mut\s+)?)+", "", squeeze(text))
    m = re.match(r"(?:\w+\s*::\s*)*(\w+)", bare)
    return m.group(1) if m else bare


def impl_of(head):
    """What stands between `impl` and its brace: the trait or nothing, and the type. `impl<'a, T: U> V<'a, T>`, `impl<T> U<T> for V<T> where ..`"""
    head = squeeze(head)
    if head.startswith("<"):
        head = head[angles(head, 0):]
    head = re.split(r"\bwhere\b", head)[0]
    depth = 0
    for m in re.finditer(r"[<({\[]|(?<!-)>|[)}\]]|\bfor\b", head):
        if m.group(0) == "for" and depth == 0:
            return type_name(head[:m.start()]), type_name(head[m.end():])
        depth += (m.group(0) in "<({[") - (m.group(0) in ">)}]")
    return None, type_name(head)


def functions(path, text=None):
    """The functions of a file crates/NAME/src/.., in an impl, a trait or a mod or on its own, on one line or on many."""
    text = read(path) if text is None else text
    plain = without_comments(text)
    crate, inner = re.match(r"(?:.*/)?crates/([^/]+)/src/(.+)\.rt$", path).groups()
    modules = [m for m in inner.split("/")]
    if modules[-1] in ("mod", "lib", "main"):
        modules.pop()
    found, scopes, at = [], [], 0
    step = re.compile(r"\b(impl|trait|mod|fn)\b|[{}]")
    while True:
        m = step.search(plain, at)
        if not m:
            break
        word, at = m.group(0), m.end()
        if word == "{":
            scopes.append(None)
        elif word == "}":
            if scopes:
                scopes.pop()
        elif word == "impl":
            brace = plain.index("{", at)
            scopes.append((impl_of(plain[at:brace])[1], False))
            at = brace + 1
        elif word == "trait":
            n = re.match(r"\s+(\w+)", plain[at:])
            brace = plain.find("{", at)
            if n and brace >= 0:
                scopes.append((n.group(1), bool(re.search(r"\bpub\s+$", plain[:m.start()]))))
                at = brace + 1
        elif word == "mod":
            n = re.match(r"\s+(\w+)\s*([;{])", plain[at:])
            if n:
                at += n.end()
                if n.group(2) == "{":
                    scopes.append((n.group(1), False))
        else:
            n = re.match(r"\s+(\w+)", plain[at:])
            if not n:
                continue
            f = Function()
            before = plain[max(0, m.start() - 80):m.start()]
            how = re.search(r'(?:\b(pub)(\s*\([^)]*\))?\s+)?(?:(?:const|unsafe)\s+)*(extern\s+"\s*C?\s*"\s+)?$', before)
            f.public = bool(how.group(1)) and not how.group(2)
            f.trait = scopes[-1][0] if scopes and scopes[-1] and scopes[-1][1] else None
            f.foreign = bool(how.group(3))
            f.name = n.group(1)
            f.crate, f.path, f.line = crate, path, plain.count("\n", 0, m.start()) + 1
            f.whole = "::".join([crate] + modules + [s[0] for s in scopes if s] + [f.name])
            start = m.start() - (len(before) - how.start())
            behind = at + n.end()
            opening = behind + len(plain[behind:]) - len(plain[behind:].lstrip())
            f.generics = ""
            if plain[opening] == "<":
                opening = angles(plain, opening)
                f.generics = squeeze(plain[behind:opening])
            opening = plain.index("(", opening)
            closing = matching(plain, opening, "(", ")")
            f.parameters = squeeze(plain[opening + 1:closing - 1])
            f.clauses, place, result_end = [], closing, None
            while True:
                n = re.compile(r"\b(requires|ensures)\b|[{;[]").search(plain, place)
                if not n:
                    raise ValueError(f"{path}: fn {f.name} has no body")
                if n.group(0) == "[":
                    place = matching(plain, n.start(), "[", "]")
                    continue
                if result_end is None:
                    result_end = n.start()
                if n.group(1):
                    brace = plain.index("{", n.end())
                    place = matching(plain, brace, "{", "}")
                    f.clauses.append((n.group(1), plain[n.end():brace].strip(), squeeze(text[brace:place])))
                else:
                    break
            f.result = squeeze(plain[closing:result_end].replace("->", " "))
            f.head = plain[start:n.start()]
            f.lines = sum(1 for l in f.head.split("\n") if l.strip())
            found.append(f)
            at = n.start() if n.group(0) == "{" else n.end()
    return found


TRAIT = re.compile(r"(?:\bpub(?:\s*\([^)]*\))?\s+)?\btrait\s+(\w+)")


def calls(root, used):
    """What another crate can call of the library crates of the list: each `pub fn`, and each function of a public trait that another crate's code names. Answers them, the files read, and
    what is wrong with files that cannot be read."""
    paths = {c: [os.path.join(root, p) if root != "." else p for p in files(root, f"crates/{c}/src", ".rt")] for c in used}
    words = {c: {w for p in paths[c] for w in re.findall(r"\w+", without_comments(read(p)))} for c in used}
    found, read_of, faults = [], [], []
    for c in used:
        if is_library(root, c):
            read_of += paths[c]
            named = set().union(*(words[d] for d in used if d != c))
            for p in paths[c]:
                try:
                    found += [f for f in functions(p) if f.public or f.trait in named]
                except ValueError as wrong:
                    faults.append(f"{p} cannot be read: {wrong}")
    return found, read_of, faults


def trait_impls(plain):
    """Where the impls of traits stand in a text without comments: the trait, the type, the impl's start, its brace and its end."""
    for m in re.finditer(r"^impl\b", plain, re.M):
        brace = plain.index("{", m.end())
        trait, owner = impl_of(plain[m.end():brace])
        if trait:
            yield trait, owner, m.start(), brace, matching(plain, brace, "{", "}")


def impls(path):
    """The impls of traits in a file: the trait, the type, and the text of the impl without its functions: its head, its types, constants and ghost items."""
    plain = without_comments(read(path))
    for trait, owner, start, brace, end in trait_impls(plain):
        yield trait, owner, plain[start:brace] + re.split(r"^\s*fn\b", plain[brace + 1:end - 1], maxsplit=1, flags=re.M)[0]


def types(path, text=None):
    """The structs, enums, traits and constants of a file: their names, with the text of each."""
    text = read(path) if text is None else text
    plain = without_comments(text)
    found = {}
    for m in TRAIT.finditer(plain):
        found[m.group(1)] = plain[m.start():matching(plain, plain.index("{", m.end()), "{", "}")]
    for m in re.finditer(r"(?:\bpub(?:\s*\([^)]*\))?\s+)?\b(?:struct|enum)\s+(\w+)", plain):
        n = re.compile(r"[{;]").search(plain, m.end())
        end = matching(plain, n.start(), "{", "}") if n.group(0) == "{" else n.end()
        found[m.group(1)] = plain[m.start():end]
    within = [(start, end) for _, _, start, _, end in trait_impls(plain)]  # what an impl of a trait gives stands with the trait or the type
    for m in re.finditer(r"(?:\bpub(?:\s*\([^)]*\))?\s+)?\bconst\s+(\w+)\s*:[^=;]*(?:\[[^]]*\])?[^=;]*=[^;]*;", plain):
        if not any(start < m.start() < end for start, end in within):
            found[m.group(1)] = m.group(0)
    return found


# ---- .antt files

class Declaration:
    """A declaration: its name, its statement (signature, with what stands around it), its clauses, its constructors and fields, and how many lines it has."""


SIGNATURE = re.compile(r"^(?:(?:abbrev|unfoldable|pub|opaque|private)\s+)*(?:(data|record)\s+)?([^\s:(){}]+)(?=[\s:])")
NOT_NAMES = {"use", "module", "mod", "infix", "infixl", "infixr", "unfolding", "where", "record", "data", "section", "let", "in"}


def plain_antt(text):
    """The text without comments; every line keeps its number."""
    return re.sub(r"--[^\n]*", "", re.sub(r"\{-.*?-\}", lambda m: "\n" * m.group(0).count("\n"), text, flags=re.S))


def is_signature(block):
    """Whether a block of lines (a line and those deeper than it) states something: it has a colon outside of every bracket, before any `=`."""
    depth = 0
    for token in re.findall(r"[(){}\[\]]|[^\s(){}\[\]]+", block):
        if token in "({[":
            depth += 1
        elif token in ")}]":
            depth -= 1
        elif depth == 0 and token == ":":
            return True
        elif depth == 0 and token == "=":
            return False
    return False


def blocks(lines, indent):
    """Cuts lines into blocks, each of which begins with a line at the indent; a line that closes a bracket belongs to the block before it."""
    block, at = [], 0
    for number, line in lines:
        if not line.strip():
            continue
        depth = len(line) - len(line.lstrip())
        if depth <= indent and not re.match(r"\s*[)}\]]", line):
            if block:
                yield at, block
            block, at = [], number
        block.append(line)
    if block:
        yield at, block


def declarations(path, text=None):
    """The declarations of an .antt file, in order, and its imports."""
    plain = plain_antt(read(path) if text is None else text)
    imports, found = [], []

    def walk(lines, indent, around):
        last = None
        for number, block in blocks(lines, indent):
            first, whole = block[0].strip(), "\n".join(block)
            words = first.split()
            word = words[0] if words[0] != "pub" or len(words) < 2 else words[1]
            if word == "use":
                imports.append(squeeze(whole))
                continue
            if word in ("mod", "infix", "infixl", "infixr"):
                continue
            if word in ("module", "section"):
                cut = next((k for k, l in enumerate(block) if re.search(r"\bwhere\s*$", l)), 0)
                inner = block[cut + 1:]
                if inner:
                    deep = min(len(l) - len(l.lstrip()) for l in inner if l.strip())
                    walk([(number + cut + 1 + k, l) for k, l in enumerate(inner)], deep, around + block[:cut + 1])
                last = None
                continue
            m = SIGNATURE.match(first)
            if word == "unfolding":
                if last:
                    last.unfolding += words[1:]
                    last.clauses.append(whole)
                    last.lines += len(block)
                continue
            kind = m.group(1) if m else None
            if m and (kind or (is_signature(whole) and m.group(2) not in NOT_NAMES)):
                d = Declaration()
                d.name, d.kind, d.path, d.line = m.group(2), kind, path, number
                d.around, d.unfolding, d.clauses, d.inner = "\n".join(around), [], [], []
                if kind:
                    cut = next((k for k, l in enumerate(block) if re.search(r"\bwhere\s*$", l)), len(block) - 1)
                    d.statement = "\n".join(block[:cut + 1])
                    deep = min([len(l) - len(l.lstrip()) for l in block[cut + 1:] if l.strip()], default=0)
                    for _, part in blocks([(0, l) for l in block[cut + 1:]], deep):
                        n = re.match(r"\s*(?:pub\s+)?([^\s:(){}]+)", part[0])
                        d.inner.append((n.group(1), "\n".join(part)))
                else:
                    d.statement = whole
                d.lines = d.stated = len(block)
                found.append(d)
                last = d
            elif last:
                last.clauses.append(whole)
                last.lines += len(block)
    walk(list(enumerate(plain.split("\n"), 1)), 0, [])
    return found, imports
