#!/usr/bin/env python3
"""Spells the repository's own definitions and lemmas as today's Rattle does.

usage: tools/respell.py [--list]        at the top of the repository, once, over all crates

Functions, fields and lemmas are in snake case; a dash stays only between two names, as in `length-take`
(PORTING.md, part 3, and CONTRACT_STYLE.md, "Names", in the kit). Types, modules and what the check generates
keep their names, and so do functions, types and strings of src/.
--list prints old and new names and changes nothing.
"""
import os
import re
import sys

STOPS = "\\s(){}\\[\\];,.:|«»\"`"
TOKEN = re.compile(f"[^{STOPS}]+")
SIGNATURE = re.compile(f"(?m)^( *)((?:pub |abbrev |unfoldable )*)([^{STOPS}]+(?: +[^{STOPS}]+)*) :(?= |$)")
VARIANT = re.compile(f"(?m)^ *\\| *([^{STOPS}]+) :(?= )")
WORDS = {"record", "data", "module", "use", "let", "in", "where", "elim", "open", "λ", "pub", "abbrev", "unfoldable", "mod"}
# What the check names itself, in Proof.antt and the files that it reads.
MADE = re.compile(r"^(invariant|decreases|loop|returns|overflow|bounds|nonzero|slice_bounds|prove|type_inv|then|else|in|if|match)([-_]|$)|-(requires|init|preserved|smaller)(-|$)")
STD = set(
    """length take drop append map set get_or replicate min max sub add mul div mod zero one suc take_at drop_at sets sum
    number take-append-le length-take get slice reverse fold filter zip word""".split()
)


# Lemmas and fields whose name a definition has in today's spelling: port.py spelled them so, and left the definition.
# (`header_of` is a function of the crates that begin with abi.)
LEMMAS = {it: f"{it}_lem" for it in "end_by first_key header_of held_by one_key read_at same_bool text_in".split()}


def files(kind):
    for folder, folders, names in os.walk("crates"):
        folders[:] = sorted(it for it in folders if it != "out")
        for name in sorted(names):
            if name.endswith(kind):
                yield os.path.join(folder, name)


def read(path):
    with open(path, encoding="utf-8") as it:
        return it.read()


def snake(part):
    """A part of a name in snake case; a type's name stays."""
    if not re.match(r"[a-z]", part) or not re.search(r"[A-Z]", part):
        return part
    part = re.sub(r"([a-z0-9])([A-Z])", r"\1_\2", part)
    return part.lower()


def declared():
    """Names that the repository's antt files declare: at their top, in sections and records, and as variants."""
    found = set()
    for path in files(".antt"):
        text = re.sub(r"(?m)--.*$", "", read(path))
        for it in SIGNATURE.finditer(text):
            names = it[3].split()
            if not WORDS & {*names}:
                found.update(names)
        found.update(VARIANT.findall(text))
        found.update(re.findall(f"(?m)^ *(?:abbrev )?(?:pub )?(?:record|data) ([^{STOPS}]+)", text))
    return {it for it in found if re.match(r"[A-Za-z]", it)}


def dashes(name, known):
    """The name with a dash only where two names meet."""
    parts = name.split("-")
    out = parts[0]
    for left, right in zip(parts, parts[1:]):
        is_name = lambda it: it in known or it in STD or bool(re.match(r"[A-Z]", it))
        out += ("-" if is_name(left) and is_name(right) else "_") + right
    return out


def table():
    found = declared()
    known = {snake(it) for it in found if "-" not in it}
    new = {}
    for name in sorted(found):
        if MADE.search(name):
            continue
        to = "-".join(snake(it) for it in name.split("-"))
        if name.endswith("-spec"):
            to = to.replace("-", "_")
        elif "-" in to:
            to = dashes(to, known)
        if to != name:
            new[name] = to
    # No two names may come to one, nor one to a name that stands already.
    taken = {it for it in found if it not in new and it not in LEMMAS}
    # Definitions first, then lemmas.
    for name in sorted(new, key=lambda it: ("-" in it, it)):
        while new[name] in taken:
            new[name] += "_lem"
        taken.add(new[name])
    return new


def respelled(text, new, is_source):
    out, at = [], 0
    for it in TOKEN.finditer(text):
        if it[0] in new:
            out += [text[at : it.start()], new[it[0]]]
            at = it.end()
    return "".join(out) + text[at:]


def source(text, new):
    """A source file: its clauses, imports and comments change, its strings do not. Dashed names are no tokens of code."""
    out = []
    for piece in re.split(r'(b?"(?:[^"\\\n]|\\.)*")', text):
        out.append(piece if piece.endswith('"') and len(piece) > 1 else respelled(piece, new, True))
    return "".join(out)


def main(words):
    new = table()
    if words == ["--list"]:
        for name in sorted(new):
            print(name, new[name])
        return 0
    for path in [*files(".antt"), *files(".rt")]:
        text = read(path)
        if path.endswith(".rt"):
            here = {k: v for k, v in new.items() if "-" not in k}
            to = source(text, here)
        else:
            more = {} if path.startswith("crates/abi") else LEMMAS
            to = respelled(text, {**new, **more}, False)
        if to != text:
            with open(path, "w", encoding="utf-8") as it:
                it.write(to)
    return 0


if __name__ == "__main__":
    sys.exit(main(sys.argv[1:]))
