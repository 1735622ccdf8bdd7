#!/usr/bin/env python3
"""Brings this repository's own definitions and lemmas to snake case: python3 tools/respell.py   (once, at the top, after the kit's port.py)

A word in camelCase or with dashes that a file of specs/ or proofs/ declares becomes snake_case, everywhere that it is written: in specs/, proofs/,
in the ghost lines of src/, and in the edits of must-fail/ and more-lies/. Where the new spelling would fall together with another name of the
repository or with one of Rust's, the lemma gets `_lem` after it. Names that begin with a capital stay: types, facts, and the fields and types of
messages, which are named as the source documents name them. Functions of src/, strings, inputs and outputs keep their names.
"""
import glob
import os
import re
import sys

WORD = r"[^\s(){}\[\];,.:@\"\\λ«»⌜⌝]+"
DECLARED = re.compile(r"^\s*(?:(?:abbrev|unfoldable|pub|record|data)\s+)*(" + WORD + r")((?:\s*[({][^)}]*[)}])*)\s*:(?=\s|$)")
# These would fall together with a field or a parameter of src/.
OTHERS = {"goodCrc": "good_crc_packet", "inHand": "is_in_hand", "setUp": "accepted_set_up"}
# Voltages, and a part of a record, which needs no other name than the port's.
OTHERS |= {"inReadyAt9V": "in_ready_at_9v", "asks5V": "asks_5v", "asks5VLater": "asks_5v_later", "asks9V": "asks_9v", "gone-out": "gone_out"}
SPLIT = re.compile(r"([\s(){}\[\];,.:@\"\\λ«»⌜⌝])")


def texts():
    for pattern in ("crates/*/specs/**/*.antt", "crates/*/proofs/**/*.antt"):
        yield from sorted(glob.glob(pattern, recursive=True))


def snake(name):
    name = re.sub(r"(?<=[a-z0-9])(?=[A-Z])|(?<=[A-Z])(?=[A-Z][a-z])", "_", name).lower() if re.search(r"[a-z0-9][A-Z]", name) and name[0].islower() else name
    return name.replace("-", "_").replace("′", "'")


def declared():
    names = set()
    for path in texts():
        for line in open(path, encoding="utf-8"):
            if line.lstrip().startswith("--"):
                continue
            m = DECLARED.match(line)
            if m:
                names.add(m.group(1))
    return names


def taken():
    """Each word that stands anywhere, so that a new spelling is seen to be free."""
    words = set()
    for path in list(texts()) + sorted(glob.glob("crates/*/src/**/*.rt", recursive=True)):
        text = open(path, encoding="utf-8").read()
        words.update(w for w in SPLIT.split(text) if w.strip())
        words.update(re.findall(r"\w+", text) if path.endswith(".rt") else [])
    return words


def spellings():
    """The camelCase definitions first: they have the plain word where a lemma would have it too."""
    names, words = declared(), taken()
    out, used = {}, set()
    # What the check looks for: the proof of the function f is f_spec.
    for name in sorted(names, key=lambda n: (n.endswith("-spec"), "-" in n, n)):
        if name[0].isupper() or "◌" in name or name not in OTHERS and not (re.search(r"[a-z][A-Z]", name) or re.search(r"[\w'<>≤]-\w", name) or "′" in name):
            continue
        new = OTHERS.get(name, snake(name))
        if name not in OTHERS and not name.endswith("-spec") and (new in used or (new in words and "-" in name)):
            new += "_lem"
        used.add(new)
        out[name] = new
    return out


def turned_antt(text, new):
    """Comments keep words with a dash: those are plain English."""
    out = []
    for line in text.split("\n"):
        code, dashes, comment = line.partition("--") if line.lstrip().startswith("--") or " -- " in line else (line, "", "")
        out.append(turned(code, new) + dashes + turned(comment, {a: b for a, b in new.items() if "-" not in a}))
    return "\n".join(out)


def borrowed(text):
    """What a file has from a library under the same spelling."""
    own = set(os.listdir("crates"))
    uses = re.findall(r"^\s*use ([^\s{;]+)\.\{([^}]*)\}", text, re.M)
    lines = [names for module, names in uses if not (module.startswith("Rattle.") and module.split(".")[1] in own)]
    return {name.strip().split(" as ")[0] for names in lines for name in names.split(",")}


def turned(text, new):
    return "".join(new.get(w, w) for w in SPLIT.split(text))


def turned_rt(text, new):
    """Only what is ghost: imports and clauses."""
    out = []
    for line in text.split("\n"):
        out.append(turned(line, new) if re.match(r"\s*(ghost|ensures|requires)\b", line) else line)
    return "\n".join(out)


def turned_edit(text, new):
    """An edit: lines `file:`, `old:` and `new:`; comments and `file:` stay."""
    out, how = [], turned_antt
    for line in text.split("\n"):
        if line.startswith("file:"):
            how = turned_rt if line.strip().endswith(".rt") else turned_antt
        key, colon, rest = line.partition(":")
        if key in ("old", "new"):
            rest = turned(rest, new) if how is turned_antt or re.match(r"\s*(ghost|ensures|requires)\b", rest) else rest
            line = key + colon + rest
        out.append(line)
    return "\n".join(out)


def main():
    new = spellings()
    if "--show" in sys.argv:
        for a, b in sorted(new.items()):
            print(a, b)
        return
    paths = list(texts()) + sorted(glob.glob("crates/*/src/**/*.rt", recursive=True)) + sorted(glob.glob("crates/*/must-fail/*.edit") + glob.glob("crates/*/more-lies/*.edit"))
    for path in paths:
        text = open(path, encoding="utf-8").read()
        how = turned_rt if path.endswith(".rt") else turned_edit if path.endswith(".edit") else turned_antt
        kept = borrowed(text)
        after = how(text, {a: b for a, b in new.items() if a not in kept})
        if after != text:
            open(path, "w", encoding="utf-8").write(after)


main()
