#!/usr/bin/env python3
"""Lists the lemmas (proofs/) and the definitions (specs/) that nothing needs.

Code, and the answers and invariants of its proofs, need what they import and name. What they need, needs more in turn.
Ends with 1 if there is a lemma or a definition that is needed by none of these and that ALLOWED hasn't got.
"""

import pathlib
import re
import sys

TOP = pathlib.Path(__file__).resolve().parent.parent

# What stands although nothing needs it: (crate, module, name), with the reason.
ALLOWED = {}
LATER = "goes with the next change of its crate"
for place, names in {
    ("board_outside", "specs.Puts"): ("CountsPut",),
    ("hart_board", "proofs.KeptStays"): ("arrived_leaves", "events_leave"),
    ("hart_board", "proofs.KnownLemmas"): ("at_by", "below_or_at", "blank_next", "kept_of_other", "one_more"),
    ("hart_memory", "proofs.NumberLemmas"): ("put_same", "slice_index-with_number_in"),
    ("hart_memory", "proofs.PageLemmas"): ("before_front",),
    ("hart_memory", "proofs.PlaceLemmas"): ("place-in_rom",),
    ("hart_words", "proofs.Bits"): ("even_halved", "even_is"),
    ("lab_sweep", "proofs.Loops"): ("counts_done", "ends_here", "goes_on"),
}.items():
    for name in names:
        ALLOWED[(*place, name)] = LATER

WORD = r"[^\W\d][\w']*(?:-[\w']+)*"
WORDS = re.compile(WORD)
HEAD = re.compile(r"^(?:(?:abbrev|unfoldable|pub|opaque)\s+)*(?:ruleset\s+(\S+)\s*=|(?:(?:record|data)\s+)?(\S+)\s.*:)")
IMPORT = re.compile(r"^\s*(pub\s+)?(?:ghost\s+)?use\s+Rattle\.(\w+)\.([\w.]+?)\.\{([^}]*)\};?", re.M)
WHOLE = re.compile(r"^\s*use\s+Rattle\.(\w+)\.([\w.]+)\s+as\s+(\w+)", re.M)
PATH = re.compile(r"\b(\w+)::((?:specs|proofs)(?:::\w+)*)::([\w-]+)")
MADE = {"Answers.antt", "Invariants.antt", "Proof.antt"}


def crates():
    for line in (TOP / "crates.txt").read_text().split("\n"):
        name = line.split("#")[0].split(":")[0].split()
        if name:
            yield name[0]


def imports(text):
    """The names that a file brings in, each with what it stands for, and those that it hands on."""
    names, handed_on = {}, set()
    for pub, crate, module, inside in IMPORT.findall(text):
        for item in inside.split(","):
            parts = item.split()
            if parts:
                names[parts[-1]] = (crate, module, parts[0])
                if pub:
                    handed_on.add(parts[-1])
    return names, handed_on


def blocks(text):
    """The declarations of a file, each with its text. Those of a module without a name stand two places further in."""
    found, premises = [], []
    for line in text.split("\n"):
        if line.strip():
            depth = (len(line) - len(line.lstrip())) // 2
            del premises[depth:]
        inner = line[2 * len(premises):]
        if inner.startswith("module _"):
            premises.append(inner)
            continue
        head = HEAD.match(inner)
        if head and not inner[0].isspace():
            found.append([head.group(1) or head.group(2), " ".join(premises) + inner])
        elif found:
            found[-1][1] += "\n" + inner
    return found


def read(crate):
    """The declarations of a crate with what each names, and what its code and its answers name."""
    folder, declared, needed = TOP / "crates" / crate, {}, set()
    for file in sorted(folder.rglob("*.antt")):
        inside = file.relative_to(folder)
        if inside.parts[0] not in ("specs", "proofs"):
            continue
        text = re.sub(r"--[^\n]*", "", file.read_text())
        names, handed_on = imports(text)
        whole = {alias: (place, module) for place, module, alias in WHOLE.findall(text)}
        text = WHOLE.sub("", IMPORT.sub("", text))
        for alias, name in re.findall(rf"\b(\w+)\.({WORD})", text):
            if alias in whole:
                needed.add((*whole[alias], name))
        if file.name in MADE:
            needed |= {names[word] for word in WORDS.findall(text) if word in names}
            continue
        module = ".".join(inside.with_suffix("").parts)
        found = blocks(text)
        own = {name: (crate, module, name) for name, _ in found}
        for name in handed_on:
            declared[(crate, module, name)] = {names[name]}
        for name, body in found:
            meant = {own.get(word) or names.get(word) for word in WORDS.findall(body)} - {None, own[name]}
            declared.setdefault(own[name], set()).update(meant)
            if not re.fullmatch(WORD, name):
                needed.add(own[name])
    for file in sorted((folder / "src").rglob("*.rt")):
        text = re.sub(r"//[^\n]*", "", file.read_text())
        names, _ = imports(text)
        for place, module, name in PATH.findall(text):
            needed.add((crate if place == "crate" else place, module.replace("::", "."), name))
        needed |= {names[word] for word in WORDS.findall(IMPORT.sub("", text)) if word in names}
    return declared, needed


def main():
    declared, todo = {}, []
    for crate in crates():
        more, needed = read(crate)
        declared.update(more)
        todo += needed
    reached = set()
    while todo:
        one = todo.pop()
        if one not in reached:
            reached.add(one)
            todo += declared.get(one, ())
    unused = [one for one in declared if one not in reached]
    for one in sorted(unused):
        why = ALLOWED.get(one)
        print(f"{one[0]} {one[1]}: {one[2]}" + (f" (allowed: {why})" if why else ""))
    needless = [one for one in ALLOWED if one not in unused]
    for one in needless:
        print(f"{one[0]} {one[1]}: {one[2]} is needed, and wants no exception")
    return 1 if needless or any(one not in ALLOWED for one in unused) else 0


if __name__ == "__main__":
    sys.exit(main())
