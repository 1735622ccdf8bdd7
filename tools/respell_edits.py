#!/usr/bin/env python3
"""Brings the edits of must-fail/ and more-lies/ to today's spelling: python3 tools/respell_edits.py   (once, at the top, after respell.py; it says what it leaves)

Each edit is read as it was at the commit that docs/PORT.md names first, with the line that its `old:` text stood in. Names become snake case, a
projection is written tight (`r .count` is `r.count`, `at r i .port` is `(at r i).port`), and what else today's line spells otherwise is spelled so in
`old:` and `new:` alike. A pair is written only where its `old:` text then stands once in today's file; the others are left for a hand.
"""
import difflib
import glob
import os
import re
import subprocess

LANDED = open("docs/PORT.md", encoding="utf-8").readline().strip()
TOKEN = re.compile(r"\s+|(?<![\w)»'])\.«?[a-zA-Z][\w'-]*»?|«[^»]*»|[^\W\d_](?:[\w'′]|-(?=\w))*|◌\S+?◌|\w+|[()]|[^\s\w()«»]+")
WORD = re.compile(r"[«\w]")
# A word of the library that today has another name.
LIBRARY = {"getD": "get_or"}
# No argument and no head of an application.
KEYWORDS = {"record", "pub", "where", "module", "use", "if", "else", "let", "return"}


def landed(path):
    r = subprocess.run(["git", "show", f"{LANDED}:{path}"], capture_output=True, text=True)
    return r.stdout if r.returncode == 0 else None


def tokens(text):
    return TOKEN.findall(text)


def snake(word):
    if word in LIBRARY:
        return LIBRARY[word]
    word = word.strip("«»").replace("′", "'")
    if "-" in word or word[0].islower() and re.search(r"[a-z0-9][A-Z]", word):
        word = re.sub(r"(?<=[a-z0-9])(?=[A-Z])", "_", word).lower().replace("-", "_")
    return word


def tight(text):
    """The text with names in snake case and its projections tight: `f x .g` projects the whole application before it."""
    stack = [[]]  # each level: the atoms of the line so far, a None where an application ends; white space stands before an atom
    space = ""

    def put(atom, ends):
        nonlocal space
        stack[-1].append((space, atom, ends))
        space = ""

    def joined(level):
        return "".join(s + a for s, a, _ in level)

    for t in tokens(text):
        if t.isspace():
            space = t
        elif t == "(":
            stack.append([("(", space, False)])
            space = ""
        elif t == ")" and len(stack) > 1:
            level = stack.pop()
            before = level[0][1]
            inner = joined(level[1:]) + space
            alone = len(level) == 2 and re.search(r"\.\w", level[1][1])
            space = before
            put(inner if alone else f"({inner})", False)
        elif t[0] == "." and len(t) > 1 and (t[1].isalpha() or t[1] == "«"):
            level = stack[-1]
            first = len(level)
            while first > 0 and not level[first - 1][2] and level[first - 1][0] != "(":
                first -= 1
            run = level[first:]
            if run:
                del level[first:]
                inner = joined([("", run[0][1], False)] + run[1:])
                space = run[0][0]
                put((inner if len(run) == 1 else f"({inner})") + "." + snake(t[1:]), False)
            else:
                put("." + snake(t[1:]), False)
        elif WORD.match(t) and t not in KEYWORDS:
            put(snake(t), False)
        else:
            put(snake(t) if WORD.match(t) else t, True)
    while len(stack) > 1:
        level = stack.pop()
        stack[-1].append((level[0][1], "(" + joined(level[1:]), False))
    return joined(stack[0]) + space


def flagged(text):
    """Each token, and whether it is a field, behind a dot: a field and another name of one spelling may be spelled in two ways today."""
    parts = tokens(text)
    return [(t, k > 0 and parts[k - 1] == ".") for k, t in enumerate(parts)]


def respelled(line, today):
    """What words today's line, which is the same statement, has in place of the line's."""
    a, b = ([t for t in flagged(x) if WORD.match(t[0])] for x in (line, today))
    return {x: y[0] for x, y in zip(a, b)} if len(a) == len(b) else {}


def turned(text, words):
    return "".join(words.get(t, t[0]) for t in flagged(text))


def main():
    left = done = 0
    for path in sorted(glob.glob("crates/*/must-fail/*.edit") + glob.glob("crates/*/more-lies/*.edit")):
        then = landed(path).split("\n")
        now = open(path, encoding="utf-8").read().split("\n")
        out, file = list(now), None
        for k, line in enumerate(then):
            if line.startswith("file: "):
                file = "/".join(path.split("/")[:2]) + "/" + line[6:]
            if not line.startswith("old: ") or not file.endswith(".antt"):
                continue
            old, new = line[5:], then[k + 1][5:]
            text = open(file, encoding="utf-8").read() if os.path.exists(file) else ""
            stood = next(l for l in landed(file).split("\n") if old in l)
            like = difflib.get_close_matches(tight(stood), text.split("\n"), 1, 0.6)
            words = respelled(tight(stood), like[0]) if like else {}
            old, new = turned(tight(old), words), turned(tight(new), words)
            if text.count(old) == 1 and like and old in like[0]:
                out[k], out[k + 1] = "old: " + old, "new: " + new
                done += 1
            else:
                print(f"left: {path}: {text.count(old)} times: {old}\n      like: {like[0] if like else ''}")
                left += 1
        if out != now:
            open(path, "w", encoding="utf-8").write("\n".join(out))
    print(f"{done} pairs in today's spelling, {left} left for a hand")


main()
