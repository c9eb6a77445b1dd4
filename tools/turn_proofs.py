#!/usr/bin/env python3
"""Turns the names that a Proof.antt cites of what Rattle makes (goals, places, steps) to today's, and orders the answers as `tie.spec` takes them.

    rt names OUT; tools/turn_proofs.py OUT [CRATE ..]      at the top of the repository

OUT/crates/CRATE/names.json has each function's names, old and new. A name is turned where the place that it is read from is known: the argument of a
goal's answer, what a `let` takes from one, and what a signature gives the type of a place. What stays open is said ('open:')."""
import glob
import json
import os
import re
import sys

OPS = ("add", "sub", "mul", "shl", "shr", "cast", "neg")
W = r"[^\s(){}\[\].,;:]+"


def plain(name):
    """The name without what older spellings differ in."""
    name = name.replace("_", "-")
    m = re.match(r"overflow-(%s)-" % "|".join(OPS), name)
    if m:
        name = name[len("overflow-") :]
    return name


class Function:
    """The names of one function. A place is known by its old name; where an arm has several old places, the last of them that is passed has today's record."""

    def __init__(self, of):
        self.stem = of["stem"]
        self.needs = [tuple(n) for n in of["needs"]]
        self.need_of = {}
        for i, (old, new) in enumerate(self.needs):
            self.need_of.setdefault(plain(old), i)
        for i, (old, new) in enumerate(self.needs):
            self.need_of.setdefault(plain(new), i)
        self.asked_at = [a[0] for a in of["asked_at"]]
        self.asked = of["asked"]
        self.pre = of["pre"]["fields"] if of["pre"] else None
        self.places = {}
        for p, new, arm, clauses in zip(of["places"], of["places_by_name"], of["arms"], of["clauses"]):
            self.places[p[0]] = {
                "up": p[1],
                "old": p[2][0],
                "new": p[2][1],
                "params": of["params"].get(p[3]),
                "name": new,
                "arm": arm,
                "clauses": clauses and clauses["fields"],
            }
        self.place_of = {plain(p): p for p in self.places}
        self.loops = {plain(l[0][0]): l[0][1] for l in of["loops"]}
        self.fields = {}
        for p in self.places.values():
            if p["old"]:
                self.fields.setdefault(plain(p["old"]), set()).add(p["new"])

    def up(self, place, n):
        for _ in range(n):
            if place is None:
                return None
            place = self.places[place]["up"]
        return place

    def group(self, place):
        """The old places that the record of a place has in it, and the place above them."""
        arm = self.places[place]["arm"]
        out = [place]
        for _ in range(arm[1] - 1 if arm else 0):
            out.append(self.places[out[-1]]["up"])
        return out, self.places[out[-1]]["up"]

    def way(self, held, wanted):
        """How often `.before` leads from the record of a place to that which has the wanted one in it, and the place of that record."""
        n = 0
        while held is not None:
            inside, above = self.group(held)
            if wanted in inside:
                return n, held
            held, n = above, n + 1
        return None


def find(names, path):
    out = {}
    for key, of in names.items():
        if isinstance(of, dict) and "places" in of and key.startswith(path + "."):
            rest = key[len(path) + 1 :]
            if rest == "Lts" or rest.startswith("Lts"):
                out[rest] = of
    return out


def blocks(text):
    """Top-level parts: each begins at a line that is not indented and not blank, and a clause goes with its signature."""
    lines = text.split("\n")
    out, here = [], []
    for i, line in enumerate(lines):
        new = line and not line[0].isspace() and not line.startswith(("--", "unfolding"))
        if new:
            head = re.match(r"(?:(?:unfoldable|abbrev|pub|irrelevant)\s+)*(%s)" % W, line)
            name = head.group(1) if head else ""
            first = here and re.match(r"(?:(?:unfoldable|abbrev|pub|irrelevant)\s+)*(%s)" % W, here[0])
            if not (first and first.group(1) == name and name not in ("use", "module")):
                if here:
                    out.append("\n".join(here))
                here = []
        here.append(line)
    out.append("\n".join(here))
    return out


class Turn:
    def __init__(self, f, path):
        self.f, self.path, self.open = f, path, []
        self.alias = "tie"

    def types(self, text):
        f = self.f

        def one(m):
            word = m.group(2)
            if word.startswith("Need-"):
                i = f.need_of.get(plain(word[5:]))
                if i is None:
                    self.open.append(m.group(0))
                    return m.group(0)
                return m.group(1) + "Need-" + f.needs[i][1]
            for head in ("invariant-", "decreases-"):
                if word.startswith(head):
                    new = f.loops.get(plain(word[len(head) :]))
                    return m.group(1) + head + new if new else m.group(0)
            p = f.place_of.get(plain(word))
            return m.group(1) + f.places[p]["name"] if p else m.group(0)

        return re.sub(r"\b(%s\.)(%s)" % (self.alias, W), one, text)

    def loops(self, text):
        for head in ("invariant-", "decreases-"):
            for old, new in self.f.loops.items():
                if old != new:
                    text = re.sub(r"(?<![\w.-])%s%s(?![\w'-])" % (head, re.escape(old)), head + new, text)
        return text

    def block(self, text, env):
        f = self.f
        env = dict(env)
        need = re.search(r"\b%s\.Need-(%s)" % (self.alias, W), text.split("\n")[0])
        head = re.match(r"(?:(?:unfoldable|abbrev|pub|irrelevant)\s+)*(%s)" % W, text.lstrip())
        for m in re.finditer(r"\((\w+(?: \w+)*) : %s\.(%s)" % (self.alias, W), text):
            p = f.place_of.get(plain(m.group(2)))
            if p:
                for v in m.group(1).split():
                    env[v] = (p, p, [], [])
        if need:
            i = f.need_of.get(plain(need.group(1)))
            if i is not None:
                name = head.group(1)
                m = re.search(r"^\s*%s (\w+)" % re.escape(name), text[text.find("\n") :], re.M)
                if m:
                    env[m.group(1)] = (f.asked_at[i], f.asked_at[i], [], [])
        # Variables in the order in which they are bound.
        pattern = re.compile(r"let (\w+) = (\w+)((?:\.%s)*) in|(?<![\w.'-])(\w+)((?:\.before)*)(?![\w'-])((?:\.%s)*)" % (W, W))

        def chain(var, words, ahead=None):
            """What a path from a variable is today, and what it leads to; or None. A variable stands for a place, or for a step of one with a path behind."""
            at, held, path, now = env[var]
            ups = 0
            while not path and words[ups : ups + 1] == ["before"]:
                ups += 1
            words = words[ups:]
            wanted = at if path else self.sought(at, ups, words[0] if words else ahead)
            found = wanted and f.way(held, wanted)
            if not found:
                return None
            whole = path + words
            read = self.read(wanted, found[1], whole, f"{var} {ups} {words}")
            if read is None or read[: len(now)] != now:
                return None
            return ".".join([var] + ["before"] * found[0] + read[len(now) :]), (wanted, found[1], whole, read)

        def one(m):
            var, words = (m.group(2), m.group(3)) if m.group(1) else (m.group(4), m.group(5) + m.group(6))
            words = words.split(".")[1:]
            known = env.get(var)
            if known is None:
                if m.group(1):
                    env[m.group(1)] = None
                if "before" in words:
                    self.open.append(m.group(0))
                return m.group(0)
            if not m.group(1) and not words:
                return m.group(0)
            ahead = None
            if m.group(1):
                # What is read of the variable says which place it is.
                use = re.search(r"(?<![\w.'-])%s\.(?!before)(%s)" % (m.group(1), W), m.string[m.end() :])
                ahead = use and use.group(1)
            found = chain(var, words, ahead)
            if m.group(1):
                env[m.group(1)] = found and found[1]
            if not found:
                self.open.append(m.group(0))
                return m.group(0)
            return f"let {m.group(1)} = {found[0]} in" if m.group(1) else found[0]

        parts = re.split(r"((?:^|(?<=\s))--[^\n]*)", text)
        return "".join(p if i % 2 else pattern.sub(one, p) for i, p in enumerate(parts))

    def sought(self, at, ups, field):
        """The place so far above. Older chains were longer: what is read there decides, if it is known."""
        f = self.f
        exact = f.up(at, ups)
        if field is None:
            return exact
        if field in ("args", "requires", "ranges", "well-formed", "well_formed", "lifetimes"):
            return "Start" if "Start" in f.places else exact
        if exact and plain(f.places[exact]["old"]) == plain(field):
            return exact
        above, n = [], 0
        while at is not None:
            if plain(f.places[at]["old"]) == plain(field) and n <= ups:
                above.append(at)
            at, n = f.places[at]["up"], n + 1
        return above[-1] if above else exact

    def read(self, wanted, held, path, whole):
        """What is read of an old place, of the record that has it."""
        f = self.f
        path = ["well_formed" if w == "well-formed" else w for w in path]
        if not path:
            return path
        place, record = f.places[wanted], f.places[held]
        if plain(path[0]) == plain(place["old"]):
            if record["arm"]:
                name, _, rows = record["arm"]
                fits = [r for r in rows if plain(r[1]) == plain(place["old"]) and r[2] == path[1 : 1 + len(r[2])]]
                if not fits:
                    if any(plain(r[1]) == plain(place["old"]) and r[2][: len(path) - 1] == path[1:] for r in rows):
                        return [name]
                    self.open.append(f"no row for {whole}: {rows}")
                    return None
                row = max(fits, key=lambda r: len(r[2]))
                path = [name, row[0]] + path[1 + len(row[2]) :]
            else:
                path = [place["new"]] + path[1:]
            path = self.by_name(path, place["params"])
            if place["clauses"] and "ensures" in path:
                path = self.clause(path, path.index("ensures"), place["clauses"], whole)
        elif path[0] == "requires" and f.pre:
            path = self.clause(path, 0, f.pre, whole)
        return path

    def by_name(self, path, params):
        """What a call left in its n-th parameter, by the parameter's name."""
        for of in ("new", "auto"):
            if params and of in path[:3]:
                at = path.index(of) + 1
                n = at
                while path[n : n + 1] == ["1"]:
                    n += 1
                if path[n : n + 1] == ["0"] and n - at < len(params):
                    return path[:at] + [params[n - at]] + path[n + 1 :]
        return path

    def clause(self, path, at, fields, whole):
        """A clause by its name in place of its number."""
        n, i = at + 1, 0
        while i < len(fields) - 1 and path[n : n + 1] == ["1"]:
            n, i = n + 1, i + 1
        if i == len(fields) - 1:
            return path[: at + 1] + [fields[i]] + path[n:]
        if path[n : n + 1] == ["0"]:
            return path[: at + 1] + [fields[i]] + path[n + 1 :]
        self.open.append(f"clauses {fields}: {whole}")
        return path

    def spec(self, text):
        """The answers in the order of the goals."""
        f = self.f
        m = re.search(r"\b%s\.spec\b" % self.alias, text)
        if not m or not re.search(r"%s\.close" % self.alias, text):
            return text
        i = m.end()
        depth, j = 0, i
        while j < len(text):
            if text[j] == "(":
                depth += 1
            elif text[j] == ")":
                if depth == 0:
                    break
                depth -= 1
            j += 1
        body = text[i:j]
        args, depth, cur = [], 0, ""
        for ch in body:
            if ch.isspace() and depth == 0:
                if cur:
                    args.append(cur)
                cur = ""
                continue
            depth += ch in "(["
            depth -= ch in ")]"
            cur += ch
        if cur:
            args.append(cur)
        answers = {}
        for d in re.finditer(r"^(?:abbrev )?(?:pub )?(%s) : [^\n]*\b%s\.Need-(%s)" % (W, self.alias, W), text, re.M):
            answers.setdefault(d.group(2), d.group(1))
        mine = set(answers.values())
        front = [a for a in args if a not in mine]
        new = front + [answers.get(n, "(λ c. search rules)") for _, n in f.needs]
        if "(λ c. search rules)" in new:
            self.open.append("no answer: " + ", ".join(n for _, n in f.needs if n not in answers))
        return text[:i] + "\n    " + "\n    ".join(new) + text[j:]


def turn(path, f):
    text = open(path, encoding="utf-8").read()
    t = Turn(f, path)
    parts = blocks(text)
    out = []
    for p in parts:
        out.append(t.block(p, {}))
    text = "\n".join(out)
    text = t.loops(t.types(text))
    text = t.spec(text)
    # An answer has the goal's name.
    renames = {}
    for d in re.finditer(r"^(?:abbrev )?(?:pub )?(%s) : [^\n]*\btie\.Need-(%s)" % (W, W), text, re.M):
        if d.group(1) != d.group(2):
            renames[d.group(1)] = d.group(2)
    if renames:
        text = re.sub(r"(?<![\w.'-])(%s)(?![\w'-])" % "|".join(sorted(map(re.escape, renames), key=len, reverse=True)), lambda m: renames[m.group(1)], text)
    if "search rules" in text and not re.search(r"use borrow\.Author\.Rules\.\{[^}]*\brules\b", text):
        text = re.sub(r"^use ", "use borrow.Author.Rules.{rules}\nuse ", text, count=1, flags=re.M)
    open(path, "w", encoding="utf-8").write(text)
    for o in t.open:
        print("open:", path, o)


def main():
    out, only = sys.argv[1], sys.argv[2:]
    for listed in sorted(glob.glob(f"{out}/crates/*/names.json")):
        crate = os.path.basename(os.path.dirname(listed))
        if only and crate not in only:
            continue
        names = json.load(open(listed))
        for path in sorted(glob.glob(f"crates/{crate}/proofs/**/Proof.antt", recursive=True)):
            home = os.path.dirname(os.path.relpath(path, f"crates/{crate}/proofs")).replace("/", ".")
            found = find(names, f"Rattle-{crate}-proofs.{home}")
            if list(found) == ["Lts"]:
                turn(path, Function(found["Lts"]))
            else:
                print("other:", path, *found)


if __name__ == "__main__":
    main()
