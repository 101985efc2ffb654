#!/usr/bin/env python3
"""Brings names of definitions, laws and theorems in the pages to the spelling that port.py and tools/snake_names.py gave them.

    python3 tools/respell_pages.py [--comments] [FOLDER]    in FOLDER, or here; a name that has today's spelling already stays

It turns what stands between backticks and in code blocks of README.md and docs/*.md, and the names of docs/theorems.txt. With --comments it turns, in place of these, what stands between
backticks in the comments of crates/**/*.antt and crates/**/*.rt. docs/landings/ and docs/PORT.md keep the names of their time.

The names are those of docs/port-names.txt (which tools/snake_names.py turned, after port.py) and those of PORTS below (which port.py had turned before, as a library had the same spelling).
"""
import glob
import os
import re
import sys

# What port.py said under "a library had the same spelling, so these names of yours are in snake case now".
PORTS = """
add-at add-r add-same add-words after-none after-one afterM aheadOf all-sound all-words and-left and-one and-right and-second answer-back answerOf any-false any-none at-least
at-most baseAt below-of best-none best-of bit-le bit-not bitsOf by-next count-most count-next counted-spec digits-low digits-more div-mono divisorOf each-all each-at each-map
endOf entry-kept enum-told fieldAt fill-more filled-more filled-none first-next first-word fits-more flag-is flag-up fold-step foldOf from-in from-out from-start from-step
gathered-none goes-on going-on half-lt has-code has-some held-back held-by held-more held-none held-one held-spec held-start heldAt heldOf inWord job-of keep-spec kept-put
lastAt least-more leaves-nothing left-below left-less lend-spec length-front lengthAt lentOf load-cons load-nil load-spec loadOf low-half lower-spec marked-all marked-more
members-only members-step moveOf moved-in mul-next mul-words nameOf never-stuck nextOf no-step none-left none-more not-after not-late not-negative not-sound not-stuck not-there
number-at numberAt numberIn numberOf old-row on-none one-entry one-in one-more one-shifted only-below only-one open-at openAt or-left or-right or-swap parts-typed passed-words
past-is place-in placeIn plus-one put-count put-spec read-all read-back read-below read-more refused-why release-spec rest-all rest-more rising-down roomFor row-in row-more
row-read rowAt rowOf rows-all rows-append rows-back rows-more rows-none rowsAt run-on run-out runOf runs-same said-read saidOf same-above same-bits same-count same-end same-if
same-length same-more same-or-not same-spec same-turn savedAt second-word set-below side-by-side signed-below size-fits sizeOf slot-kept some-below stack-of start-spec startOf
stateOf step-by step-falls step-is step-kept step-same step-spec step-went step-words stepOf sub-number sub-same sum-same table-is table-same table-stays tableAt tableOf taskOf
then-same too-large too-long trailing-even trailing-odd turn-spec turnOf turned-round two-in up-to value-grows value-spec valueOf walk-end walk-none walk-start went-on
whole-numbers whole-ready whole-row withNumber withRow word-got word-more word-read word-same word-sound wordIn wordOf words-back wordsIn wordsOf written-back
""".split()
# The definitions `goesOn` and `heldAt` have these names; what tools/snake_names.py put `_lem` behind is a lemma beside each.
DEFINITIONS = {"goes-on": "goes_on", "heldAt": "held_at"}

words = [a for a in sys.argv[1:] if a != "--comments"]
os.chdir(words[0] if words else os.path.join(os.path.dirname(os.path.abspath(__file__)), ".."))


def read(path):
    with open(path, encoding="utf-8", newline="") as file:
        return file.read()


def write(path, text):
    with open(path, "w", encoding="utf-8", newline="") as file:
        file.write(text)


def snake(name):
    return re.sub(r"(?<=[a-z0-9])[A-Z]", lambda m: "_" + m.group(0).lower(), name).replace("-", "_")


turned = dict(line.split() for line in read("docs/port-names.txt").split("\n") if line)
names = {}
for old in PORTS:
    names[old] = DEFINITIONS.get(old) or turned.get(snake(old), snake(old))
# A name that is in snake case on the left is port.py's for one of PORTS: in a page it may be a function's.
for old, new in turned.items():
    if not re.fullmatch(r"[a-z0-9_']+", old):
        names[old] = names[old.replace("'", "′")] = new

NAME = re.compile(r"(?<![\w'′-])[A-Za-z][\w'′]*(?:-[\w'′]+)*(?![\w'′-])")


def code(text):
    """A piece of code in today's spelling."""
    text = re.sub(r"\bRattle·(\w+)(?:·(?:specs|proofs))?\.(specs|proofs)\b", r"Rattle.\1.\2", text)
    text = re.sub(r"(?<![\w_])_([A-Za-z]\w*?|[^\w\s`]+)_(?![\w_])", lambda m: "◌" + snake(m.group(1)) + "◌", text)
    text = NAME.sub(lambda m: names.get(m.group(0), m.group(0)), text)
    return re.sub(r"(?<=[\w)'′]) \.(?=[A-Za-z]\w*(?![\w/]))", ".", text).replace("′", "'")


def in_backticks(text):
    return re.sub(r"`[^`]+`", lambda m: code(m.group(0)), text)


def page(text):
    """A page with its code turned: fenced blocks, blocks that are indented by four after a blank line, and what stands between backticks."""
    out, fence, block, last = [], False, False, ""
    for line in text.split("\n"):
        if line.startswith("```"):
            fence = not fence
            out.append(line)
        else:
            block = line.startswith("    ") and (block or not last.strip())
            out.append(code(line) if fence or block else in_backticks(line))
        last = line
    return "\n".join(out)


def comments(text, mark):
    """The file with its comments turned; lines of comment that follow each other are one, so that a name may be cut by a line's end."""
    lines = text.split("\n")
    at = 0
    while at < len(lines):
        if lines[at].strip().startswith(mark):
            end = at
            while end < len(lines) and lines[end].strip().startswith(mark):
                end += 1
            lines[at:end] = in_backticks("\n".join(lines[at:end])).split("\n")
            at = end
            continue
        bare = re.sub(r'"[^"]*"', lambda m: " " * len(m.group(0)), lines[at])
        behind = re.search(r"\s" + mark + r"\s", bare)
        if behind:
            lines[at] = lines[at][:behind.start()] + in_backticks(lines[at][behind.start():])
        at += 1
    return "\n".join(lines)


if "--comments" in sys.argv:
    work = [(p, lambda t: comments(t, "--")) for p in glob.glob("crates/*/specs/**/*.antt", recursive=True) + glob.glob("crates/*/proofs/**/*.antt", recursive=True)]
    work += [(p, lambda t: comments(t, "//")) for p in glob.glob("crates/*/src/**/*.rt", recursive=True)]
else:
    pages = [p for p in glob.glob("docs/**/*.md", recursive=True) if not p.startswith(("docs/landings/", "docs/PORT"))]
    work = [(p, page) for p in ["README.md"] + pages]
    work += [("docs/theorems.txt", lambda t: re.sub(r"^([^#\s:]+)(?=:)", lambda m: re.sub(r"^\*-", "*_", code(m.group(1))), t, flags=re.M))]
changed = 0
for path, how in sorted(work):
    old = read(path)
    new = how(old)
    if new != old:
        write(path, new)
        changed += 1
        print(path)
print(f"{changed} files changed")
