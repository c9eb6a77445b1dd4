#!/usr/bin/env python3
"""Spells the repository's own names as today's Rattle does, once, behind port.py: words are joined by `_` (`need-of`: `need_of`), a type's
name is one word in camel case (`Goal-spelled`: `GoalSpelled`). Kept are names of the kit that a file imports, and names that Rattle makes
(`Need-x`, `invariant-x`, `decreases-x`, what stands behind `tie.` or `goal.`, and steps behind a dot that no record of ours has).

    tools/respell.py            at the top: crates/*/{specs,proofs,src}
    tools/respell.py FOLDER     the same below FOLDER

It says which names fall together in a file ('together:'), and which files have names of the kit that are ours elsewhere ('kit:')."""
import collections
import os
import re
import sys

NAME = re.compile(r"[^\s(){}\[\].,;:`\"]+")
DASHED = re.compile(r"^[^\W\d_][\w'₀₁₂₃₄₅₆₇₈₉]*(-[\w'₀₁₂₃₄₅₆₇₈₉]+)+$")
# Words of tactics, which no definition may have; and the library's own `if`, which has another definition than ours.
TACTICS = {"ground": "a_ground", "if": "when", "if◌then◌else◌": "when◌then◌else◌"}
BY_HAND = {"Taken-of": "taken_of", "getD-from-getElem?": "get_or_from_get_elem"}
MADE = re.compile(r"^(Need|invariant|decreases)-")
MARKS = r"(?:(?:unfoldable|abbrev|pub|pattern|irrelevant)\s+)*"
KIT = ("Prim.", "mathlib.", "lib.", "native.", "base.", "borrow.", "contract.", "denote.", "ghost.", "mir.", "prog.", "seplogic.", "sound.", "store.",
       "types.", "Rattle.std.", "Rattle.core.", "Rattle.io.")


def spelled(name):
    """The name in today's spelling: a type's parts in camel case, all else with underscores. `Taken-of` is port.py's for our `taken-of`."""
    if name in BY_HAND:
        return BY_HAND[name]
    if name[0].isupper():
        head, *rest = name.split("-")
        return head + "".join(part[:1].upper() + part[1:] for part in rest)
    return name.replace("-", "_")


def split(line):
    """The line's code, and its remark."""
    m = re.search(r"(^|\s)--(\s|$)", re.sub(r'"(\\.|[^"\\])*"', lambda s: "x" * len(s.group()), line))
    return (line[: m.start()], line[m.start() :]) if m else (line, "")


def imports(text):
    """Names imported from the kit, and from our own crates."""
    kit, own = set(), set()
    for m in re.finditer(r"use ([A-Za-z_][^\s{]*)\.\{([^}]*)\}", text):
        ours = not (m.group(1) + ".").startswith(KIT)
        for part in m.group(2).split(","):
            words = part.strip().split(" as ")
            (own if ours else kit).add(words[0].strip())
            if len(words) == 2:
                own.add(words[1].strip())
    return kit, own


def members(text):
    """Labels of records and constructors of data."""
    inside = None
    for line in text.split("\n"):
        line = split(line)[0]
        depth = len(line) - len(line.lstrip())
        if re.match(r" *(pub |unfoldable |abbrev )*(record|data) ", line):
            inside = depth
        elif inside is not None and line.strip():
            if depth <= inside:
                inside = None
                continue
            m = re.match(r"\s+([^:(){}]+?)\s*:", line)
            if m:
                yield from (w for w in m.group(1).split() if DASHED.match(w))


def declared(text):
    for m in re.finditer(r"^ *%s(?:record |data )?([^\s(){}\[\].,;:]+)\s*(?:\{[^}]*\})?\s*:" % MARKS, text, re.M):
        if DASHED.match(m.group(1)):
            yield m.group(1)


def strip_clauses(text):
    """Of a source its code, without remarks, imports for clauses, and clauses."""
    text = re.sub(r"(^|\s)//.*", "", text)
    text = re.sub(r"ghost use [^;]*;", "", text)
    return re.sub(r"\b(requires|ensures|ghost)\b[^{;]*\{.*?\}(?=\s*(?:requires|ensures|\{|where))", "", text, flags=re.S)


def files_below(top):
    for folder, folders, names in os.walk(top):
        folders[:] = sorted(f for f in folders if f not in ("out", "target", ".git"))
        for name in sorted(names):
            if name.endswith((".antt", ".rt")):
                yield os.path.join(folder, name)


def main():
    top = sys.argv[1] if len(sys.argv) > 1 else "crates"
    texts = {path: open(path, encoding="utf-8").read() for path in files_below(top)}
    labels, tops = set(), set()
    for path, text in texts.items():
        if path.endswith(".antt"):
            labels.update(members(text))
            tops.update(declared(text))
    together = collections.defaultdict(set)
    for path, text in texts.items():
        kit, own = imports(text)
        here = set(declared(text)) if path.endswith(".antt") else set()
        # Goals are called as Rattle calls them.
        goals = set(re.findall(r"^(?:pub )?([^\s(){}\[\].,;:]+) : [^\n]*\b(?:tie|goal)\.Need-", text, re.M))
        kit -= own | here
        antt = path.endswith(".antt")
        seen = collections.defaultdict(set)
        rust = set() if antt else set(re.findall(r"\b(?:fn|let|let mut|mod) (\w+)|[{,:] *(\w+)(?=[,};(])|(\w+)(?=\()", strip_clauses(text)))
        rust = {w for words in rust for w in words} if rust else set()

        def turn(m, code):
            word, before = m.group(), m.string[: m.start()]
            if code and word in TACTICS and (antt or word != "if" or re.search(r"\bthen\b", m.string[m.end() :])):
                return TACTICS[word]
            if not DASHED.match(word) and word not in BY_HAND:
                return word
            if before.endswith("."):
                left = NAME.search(before[:-1][::-1])
                left = left.group()[::-1] if left else ""
                if left in ("tie", "goal") or MADE.match(word):
                    return word
                if word not in labels and not (word in tops and (left[:1].isupper() or left in modules)):
                    return word
            elif MADE.match(word) or word in kit or word in goals:
                return word
            elif not code and (word not in tops and word not in labels or re.search(r"-requires(-\d+)?$|^(loop|if)-", word)):
                return word
            seen[spelled(word)].add(word)
            if spelled(word) in rust and code and not before.endswith(".") and word not in renamed:
                # A function of this file has that name: the definition is brought in under another one.
                return f"{spelled(word)} as {spelled(word)}_meant" if importing else f"{spelled(word)}_meant"
            return spelled(word)

        out, importing = [], False
        modules = set(re.findall(r"\bas (\w+)\s*$|\bas (\w+);", text, re.M))
        modules = {w for words in modules for w in words}
        renamed = set(re.findall(r"([^\s{,]+) as ", text))
        for line in text.split("\n"):
            importing = not antt and (importing or line.startswith("ghost use "))
            if antt:
                code, remark = split(line)
            else:
                m = re.search(r"(^|\s)//", line)
                code, remark = (line[: m.start()], line[m.start() :]) if m else (line, "")
            parts = re.split(r"""("(?:\\.|[^"\\])*"|b'(?:\\.|[^'])')""", code)
            code = "".join(p if i % 2 else NAME.sub(lambda m: turn(m, True), p) for i, p in enumerate(parts))
            importing = importing and ";" not in line
            # What a remark quotes is the documents' own.
            parts = re.split(r'("[^"]*(?:"|$))', remark)
            out.append(code + "".join(p if i % 2 else NAME.sub(lambda m: turn(m, False), p) for i, p in enumerate(parts)))
        turned = "\n".join(out)
        words = set(NAME.findall(text))
        for new, olds in seen.items():
            if len(olds) > 1 or new in words:
                together[new].add((path, tuple(sorted(olds))))
        for word in sorted(kit & tops):
            print("kit:", path, word)
        if turned != text:
            open(path, "w", encoding="utf-8").write(turned)
    for new in sorted(together):
        for path, olds in sorted(together[new]):
            print("together:", new, path, *olds)


if __name__ == "__main__":
    main()
