#!/usr/bin/env python3
"""The places of docs/DESIGN-PASS.md: tools/design_places.py [POINT] [--list] (run at the top of a checkout)

For each point a few patterns over the code in crates/*/src, and how many places each finds; --list prints them too. What a pattern can't tell is read by eye: the page says which of
these places are of the older form.
"""
import glob, re, sys
from collections import Counter

VIS = r"(?:pub(?:\(crate\))? )?"
FIELD = r"^ *" + VIS

# point: (what, pattern over a line)
LINES = {
    1: [
        ("enums", r"^ *" + VIS + r"enum (\w+)"),
        ("a finding, a flag or nobody beside a value", FIELD + r"\w+: (Finding|bool|Who|Found),$"),
        ("a number in place of a kind or a refusal", r"\b(kind|number): u32|\bkind [!=]= |\) == LOCK"),
        ("a number in place of none", r"return 0;|MOST_MULTIPLE \+ 1"),
    ],
    2: [
        ("a type in a function's name", r"\bfn \w+_(u8|u32|u64|usize)\b"),
        ("an item into a lent room", r"^ *" + VIS + r"fn (put|lay_word)(<[^>]*>)?\((room|buffer): &mut \["),
    ],
    3: [
        ("while", r"^ *('\w+: )?while (?!let)"),
        ("loop", r"^ *('\w+: )?loop \{"),
        ("for over numbers", r"^ *for \w+ in [^.]*\.\."),
    ],
    4: [
        ("what the library has", r"\bfn (same|digits_only|is_digit|digit|value|bits|magnitude|lesser\w*|greater\w*|ahead|stored|append|line_end|with_length|counted|with)(<[^>]*>)?\("),
        ("a number's parts taken by hand", r"[%/] HALF|as u8\b"),
        ("printing", r"\bfn put_(number|signed|named|name|with|turn|reply|finding|verdict|fault|doing|held|members?|refused|placed|text)(<[^>]*>)?\("),
    ],
    6: [
        ("a length beside a buffer", FIELD + r"(length|depth|filled|bytes): usize,$"),
        ("parallel arrays", FIELD + r"(resources|lengths|spare|periods|deadlines|costs): &?\[u\d+; \w+\],$"),
    ],
    7: [
        ("functions as values", r"\bdyn \b|: fn\(|Box<"),
        ("which step to run", r"\bmatch (step|which|phase|op)\b"),
    ],
}


def sources():
    for path in sorted(glob.glob("crates/*/src/*.rt")):
        yield path, open(path).read()


def by_line(pattern):
    for path, text in sources():
        for i, line in enumerate(text.split("\n"), 1):
            code = line.split("//")[0]
            if "use " not in code.split("{")[0] and re.search(pattern, code):
                yield f"{path}:{i}: {line.strip()}"


def clauses():
    """Point 5: a clause's part that stands in three or more contracts, and parameters that travel together."""
    parts = Counter()
    for path, text in sources():
        for m in re.finditer(r"^ *requires(?: \w+)? \{ (.*) \}$", text, re.M):
            for part in re.split(r" × ", m.group(1)):
                parts[re.sub(r"\.(old|now)\b", "", part.strip("()"))] += 1
    for part, n in sorted(parts.items()):
        if n >= 3:
            yield n, "asked: " + part
    together = {
        "words and map": r"words: &\[u32\],\s*map: Map\b",
        "floors beside words and map": r"map: Map,\s*floors: &",
        "periods, deadlines, costs": r"periods: &\[u64; TASKS\],\s*deadlines: &",
        "room, out and feed": r"out: &mut \[u8\],\s*(feed|before): Feed",
        "kind, resource, length": r"kind: u32,\s*resource: u32,\s*length: u32",
        "words, length": r"words: &\[u32\],\s*length: usize",
    }
    for what, pattern in together.items():
        n = sum(len(re.findall(pattern, text)) for _, text in sources())
        if n:
            yield n, "together: " + what


def main():
    wanted = [int(a) for a in sys.argv[1:] if a.isdigit()] or range(1, 9)
    show = "--list" in sys.argv
    for point in wanted:
        for what, pattern in LINES.get(point, []):
            found = list(by_line(pattern))
            print(f"{point}  {len(found):4}  {what}")
            if show:
                print("".join(f"           {f}\n" for f in found), end="")
        if point == 5:
            for n, what in clauses():
                print(f"5  {n:4}  {what}")
        if point == 8:
            for what in ("Answers", "Invariants"):
                files = glob.glob(f"crates/*/proofs/**/{what}.antt", recursive=True)
                print(f"8  {len(files):4}  {what}.antt, {sum(len(open(f).read().splitlines()) for f in files)} lines")
            files = [f for f in glob.glob("crates/*/proofs/**/*.antt", recursive=True) if not f.endswith(("Answers.antt", "Invariants.antt"))]
            print(f"8  {len(files):4}  files of lemmas, {sum(len(open(f).read().splitlines()) for f in files)} lines")


main()
