#!/usr/bin/env python3
"""Brings the names of definitions, lemmas and fields that this repository's .antt files declare to snake case.

usage: python3 tools/spelling.py [FOLDER]     at the top of a checkout, once, over the text that port.py wrote

A word in camel case (rowAddress) or with dashes (run-append) becomes row_address, run_append, in specs/ and proofs/, in the clauses and
`ghost use` lines of src/, and where docs/ cite a definition as FILE.antt:NAME. Types, modules, names of src/ and names that Rattle makes stay.
Two names of one file that would fall together are listed, and nothing is written unless RENAMED below parts them.
"""
import os
import re
import sys

ROOT = sys.argv[1] if len(sys.argv) > 1 else "."
# a name whose plain respelling would fall together with another one, or hide one, where it is read
RENAMED = {w: w.replace("-", "_") + "_lem" for w in (
    "is-weave draw-done run-done write_done in-flyback request-now first-place frame-pixels frame-end place_at "
    "field-visible frame-totals in-display mark-ends is_control start-texts first_done picture-shown size-of byte-at "
    "example-file row-in interlaced-rows"
).split()}
RENAMED |= {"one-wrong": "one_wrong_told", "checksums-read": "checksums_read_back"}
# a field of a record beside a definition of its name, which the record does not use after it
BESIDE = {("crates/picture/specs/Plan.antt", "in_field")}

PART = r"[A-Za-z0-9_'ℕℤ₀-₉]+"
WORD = re.compile(rf"(?<![\w'◌-]){PART}(?:-{PART})*(?![\w'◌-])")
DECLARED = re.compile(r"^(\s*)(?:abbrev |unfoldable )?(?:pub )?(?:unfoldable |abbrev )?(?:pub )?(\S+) :(?= |$)")
LET = re.compile(rf"\blet (?:\(([^()]*)\)|({PART}(?:-{PART})*)) *(?::|=)")
BOUND = re.compile(rf"[\(\{{]((?:{PART}(?:-{PART})* )+):")
LAMBDA = re.compile(rf"λ ([^.]*)\.")
MADE = re.compile(r"^use Rattle\.\w+\.(?:specs|proofs)\..*\b(?:declared|contracts|Tie|Statement|Code|TheLaws|Symbol|Met|Key)\b")


def files(end):
    for folder, dirs, names in os.walk(os.path.join(ROOT, "crates")):
        dirs[:] = sorted(d for d in dirs if d != "out")
        for n in sorted(names):
            if n.endswith(end):
                yield os.path.join(folder, n)


def plain(word):
    """The respelling of a word, or the word."""
    if word in RENAMED:
        return RENAMED[word]
    if "-" not in word and not re.match(r"[a-z][a-z0-9]*[A-Z]", word):
        return word
    if re.match(r"[A-Z]", word):
        return word
    w = re.sub(r"V(?=[A-Z])(\w)", lambda m: "V" + m.group(1).lower(), word.replace("-", "_"))
    return re.sub(r"(?<=[A-Za-z0-9])([A-Z])", r"_\1", w).lower()


def ours(path):
    m = re.match(r"Rattle\.(\w+)\.", path)
    return m is not None and os.path.isdir(os.path.join(ROOT, "crates", m.group(1)))


def comment(line):
    at = re.search(r"(?:^|\s)--(?:\s|$)", line)
    return (line[: at.start()], line[at.start() :]) if at else (line, "")


def declared():
    own, fields = set(), set()
    for p in files(".antt"):
        inside = None
        for line in open(p, encoding="utf-8"):
            code, _ = comment(line)
            if code.startswith("use "):
                continue
            m = DECLARED.match(code)
            r = re.match(r"^(\s*)(?:pub )?record ", code)
            if inside is not None and code.strip() and len(code) - len(code.lstrip()) <= inside:
                inside = None
            if m:
                own.add(m.group(2))
                if inside is not None:
                    fields.add(m.group(2))
            if r:
                inside = len(r.group(1))
            for t in LET.finditer(code):
                own.update(re.findall(rf"{PART}(?:-{PART})*", t.group(1) or t.group(2)))
            for t in BOUND.finditer(code):
                own.update(t.group(1).split())
            for t in LAMBDA.finditer(code):
                own.update(re.findall(rf"{PART}(?:-{PART})*", t.group(1)))
    turn = {w: plain(w) for w in own if plain(w) != w}
    return turn, {w for w in fields if w in turn}


def turned(code, turn, fields):
    def one(m):
        w = m.group(0)
        if w not in turn:
            return w
        before = code[: m.start()]
        if before.endswith(".") and w not in fields and not re.search(r"(?<![\w.)\]])[A-Z]\w*\.$", before):
            return w
        return turn[w]

    return WORD.sub(one, code)


def antt(text, turn, fields):
    # a name that a file imports from a library is the library's
    theirs = {n.split(" as ")[0] for m in re.finditer(r"^use (\S+)\.\{(.*)\}", text, re.M) if not ours(m.group(1)) for n in m.group(2).split(", ")}
    turn = {w: t for w, t in turn.items() if w not in theirs}
    out = []
    for line in text.splitlines(keepends=True):
        code, rest = comment(line)
        if MADE.match(code):
            out.append(line)
        else:
            # what a comment cites between backticks is respelled too
            out.append(turned(code, turn, fields) + re.sub(r"`[^`]*`", lambda m: turned(m.group(0), turn, fields), rest))
    return "".join(out)


CLAUSE = re.compile(r"\b(?:requires|ensures)\*?(?: \w+)? \{|\bghost (?:use|\w+:?|\w+ =) ")


def rt(text, turn, fields):
    out, at = [], 0
    for m in CLAUSE.finditer(text):
        if m.start() < at:
            continue
        line = text.rfind("\n", 0, m.start()) + 1
        if "//" in text[line : m.start()]:
            continue
        if m.group(0).endswith("{"):
            depth, e = 1, m.end()
            while depth:
                depth += {"{": 1, "}": -1}.get(text[e], 0)
                e += 1
        else:
            e = text.index(";", m.end()) + 1
        out.append(text[at : m.start()])
        out.append(m.group(0) + turned(text[m.end() : e], turn, fields))
        at = e
    out.append(text[at:])
    return "".join(out)


def together(p, text, turn, fields):
    """Pairs of words of one file that differ and would be one."""
    seen = {}
    for line in text.splitlines():
        code, _ = comment(line)
        if MADE.match(code):
            continue
        for m in WORD.finditer(code):
            w = m.group(0)
            if code[: m.start()].endswith(".") and w not in fields:
                continue
            seen.setdefault(turn.get(w, w), set()).add(w)
    return [(os.path.relpath(p, ROOT), sorted(s)) for k, s in sorted(seen.items()) if len(s) > 1 and (os.path.relpath(p, ROOT), k) not in BESIDE]


def main():
    turn, fields = declared()
    bad, made = [], {}
    for p in files(".antt"):
        text = open(p, encoding="utf-8").read()
        bad += together(p, text, turn, fields)
        made[p] = (text, antt(text, turn, fields))
    for p in files(".rt"):
        text = open(p, encoding="utf-8").read()
        new = rt(text, turn, fields)
        # a parameter or a local of the same spelling would hide the word
        words = {turn[w] for w in turn if re.search(rf"(?<![\w'-]){re.escape(w)}(?![\w'-])", text)}
        hidden = sorted(set(re.findall(r"[(,]\s*(?:mut )?(\w+): ", text)) & words)
        if hidden:
            bad.append((os.path.relpath(p, ROOT), hidden))
        made[p] = (text, new)
    for b in bad:
        print("together:", *b)
    if bad and "--force" not in sys.argv:
        return 1
    for p, (text, new) in made.items():
        if new != text:
            with open(p, "w", encoding="utf-8") as f:
                f.write(new)
    docs = [os.path.join(ROOT, n) for n in ("README.md", "CONTRIBUTING.md")]
    for folder, _, names in os.walk(os.path.join(ROOT, "docs")):
        docs += [os.path.join(folder, n) for n in names if n.endswith(".md")]
    for p in docs:
        if not os.path.exists(p) or p.endswith("PORT.md"):
            continue
        text = open(p, encoding="utf-8").read()
        new = re.sub(r"(\.antt:)([\w'-]+)", lambda m: m.group(1) + turn.get(m.group(2), plain(m.group(2))), text)
        if new != text:
            with open(p, "w", encoding="utf-8") as f:
                f.write(new)
    print(f"{len(turn)} names respelled")
    return 0


if __name__ == "__main__":
    sys.exit(main())
