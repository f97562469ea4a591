#!/usr/bin/env python3
"""Respells the repository's own words of specs/ and proofs/ after the kit's port.py: snake case, `_` for a dash.

usage: spelling.py [--list] [FOLDER]

FOLDER is the top of the repository, else the current one. Types, modules, the commands of the sheets (ACT, RD) and names of the kit stay. It prints
names that would fall together, and then changes nothing. A second run finds nothing to do.
"""

import collections
import glob
import os
import re
import sys

NAME = re.compile(r'[^\s(){}.;,@"«»\[\]\\`]+')
USE = re.compile(r"\buse ([^\s;{]+?)\.?\{([^}]*)\}")
# Lemmas that port.py gave the names that their functions now have, and a constructor.
LEMMAS = {name: name + "_lem" for name in ("share_in", "moved_on", "opened_after", "has_room", "end_step", "not_behind", "own_in")}
LEMMAS["of_entry"] = "of_an_entry"
# Names whose humps do not tell their words, and those that would meet another.
ODD = {
    "lastRDorMRR": "last_rd_or_mrr",
    "◌upTo◌": "◌up_to◌",
    "upTo": "up_to",
}


def spelled(name):
    if name in ODD:
        return ODD[name]
    head = name[0] if name[0].isupper() else ""
    words = re.sub(r"(?<=[a-z0-9])(?=[A-Z])", "_", name[len(head):])
    return head + words.lower().replace("-", "_") if head else words.lower().replace("-", "_")


def read(path):
    with open(path, encoding="utf-8") as it:
        return it.read()


def texts():
    specs = glob.glob("crates/*/specs/**/*.antt", recursive=True)
    return sorted(specs + glob.glob("crates/*/proofs/**/*.antt", recursive=True))


def sources():
    return sorted(glob.glob("crates/*/src/**/*.rt", recursive=True))


def without_comments(text):
    return re.sub(r"(?m)(?<!\S)--[^\n]*", "", text)


def of_the_kit(own):
    names = set()
    for path in texts() + sources():
        for module, group in USE.findall(read(path)):
            steps = module.split(".")
            if steps[0] == "Rattle" and len(steps) > 1 and steps[1] in own:
                continue
            names.update(n for n in re.split(r"[,\s]+", group) if n)
        names.update(re.findall(r"\b(?:native|mathlib|borrow|lib|Prim)\.[\w.]*\.([^\s(){}.;,]+)", read(path)))
    return names


def candidates(own):
    kit = of_the_kit(own)
    found = set()
    for path in texts():
        # A function's proof has names that Rattle makes.
        if re.search(r"/proofs/.+/", path):
            continue
        for name in NAME.findall(without_comments(read(path))):
            humps = re.search(r"[a-z0-9][A-Z]", name) and re.match(r"[a-z◌]", name)
            dash = re.fullmatch(r"[A-Za-z◌][A-Za-z0-9'◌]*(-[A-Za-z0-9'◌]+)+", name)
            if (humps or dash) and name not in kit:
                found.add(name)
    names = {name: spelled(name) for name in found if spelled(name) != name}
    # A lemma that would have its function's name.
    words = {word for name, word in names.items() if "-" not in name} | declared()
    return {name: word + "_lem" if "-" in name and word in words else word for name, word in names.items()}


def declared():
    """The names that are in snake case already."""
    line = re.compile(r"^\s*(?:(?:unfoldable|abbrev|pub)\s+)*([a-z][a-z0-9]*(?:_[a-z0-9]+)+) (?:\{[^}]*\} )*:", re.M)
    return {name for path in texts() if not re.search(r"/proofs/.+/", path) for name in line.findall(read(path))}


def parts(text, path):
    """Cuts a text into (is code, piece): comments and strings are no code."""
    if path.endswith(".rt"):
        cut = r'(//[^\n]*|b?"(?:[^"\\]|\\.)*")'
    else:
        cut = r"((?:(?<=\s)|^)--[^\n]*)"
    for i, piece in enumerate(re.split(cut, text, flags=re.M)):
        yield i % 2 == 0, piece


def here(text, names):
    """The names of one file: one that a module is brought in as has no function beside it, or says what it is."""
    aliases = set(re.findall(r"(?m)^use \S+ as (\S+)$", text)) & names.keys()
    words = {names[name] for name in NAME.findall(text) if name in names and name not in aliases}
    return {**names, **{name: spelled(name) + ("_call" if spelled(name) in words else "") for name in aliases}}


def respelled(text, path, names):
    out = []
    names = here(text, names)
    for code, piece in parts(text, path):
        if code and path.endswith(".antt"):
            piece = re.sub(r"(?<![\w.'-])(" + "|".join(LEMMAS) + r")(?![\w.'-])", lambda m: LEMMAS[m.group()], piece)
        if code:
            out.append(NAME.sub(lambda m: names.get(m.group(), m.group()), piece))
        elif piece.startswith(("//", "--")):
            piece = re.sub(r"`([^`]*)`", lambda m: "`" + NAME.sub(lambda n: names.get(n.group(), n.group()), m.group(1)) + "`", piece)
            out.append(re.sub(r"\b[a-z]+[a-z0-9]*[A-Z][A-Za-z0-9]*\b", lambda m: names.get(m.group(), m.group()), piece))
        else:
            out.append(piece)
    return "".join(out)


def meetings(names):
    met = []
    new = collections.defaultdict(set)
    for old, word in names.items():
        new[word].add(old)
    met += [f"{' and '.join(sorted(olds))} -> {word}" for word, olds in new.items() if len(olds) > 1]
    for path in texts():
        # A function's proof names the function in its paths.
        if re.search(r"/proofs/.+/", path):
            continue
        text = read(path)
        used = set()
        for code, piece in parts(text, path):
            if code:
                used.update(NAME.findall(re.sub(r"(?m)^use \S+ as ", "", piece)))
        own = here(text, names)
        met += [f"{path}: {old} -> {own[old]}" for old in sorted(used & own.keys()) if own[old] in used and own[old] not in LEMMAS]
    return met


def main(args):
    listing = "--list" in args
    args = [a for a in args if a != "--list"]
    os.chdir(args[0] if args else ".")
    own = {line.split(":")[0].split()[0] for line in read("crates.txt").splitlines() if line.strip() and line[0] != "#"}
    names = candidates(own)
    if listing:
        for old in sorted(names):
            print(f"{old}\t{names[old]}")
        return 0
    if not names:
        print("spelling: nothing to do")
        return 0
    met = meetings(names)
    if met:
        print("\n".join(met))
        return 1
    for path in texts() + sources():
        before = read(path)
        after = respelled(before, path, names)
        if after != before:
            with open(path, "w", encoding="utf-8") as it:
                it.write(after)
    print(f"spelling: {len(names)} names")
    return 0


if __name__ == "__main__":
    sys.exit(main(sys.argv[1:]))
