#!/usr/bin/env python3
"""Spells the names of this repository's own definitions and lemmas as Rattle's libraries do: words in snake case, types and facts in
camel case, and a dash only where it joins two names, as in `length-put`.

usage: tools/respell.py [--check]     at the top of the repository; --check prints the table and writes nothing

Names are those that crates/*/specs and crates/*/proofs declare, outside the folders of single functions. A name of the old spelling turns in
.antt files, in .rt files outside strings, in must-fail edits, and in code spans of README.md and docs/. A name without a capital
within it turns only in a file that declares or imports it, since labels of goals and names of src/ may be spelled alike. A name that would meet another one stops the script.
"""
import os
import re
import sys

NAME = r'[^\s(){}.;,@"«»`]+'
TOKEN = re.compile(r'(?<![^\s(){}.;,@"«»`])' + NAME)
DECLARED = re.compile(r"(?m)^ *(?:(?:pub|abbrev|unfoldable|opaque) )*(?:(record|data) )?(" + NAME + r")(?: [({][^\n]*[)}])* :(?!:)")
CAMEL = re.compile("[a-z0-9][A-Z]")
# Words of the library that begin or end a name of two.
WORDS = set("length take drop append get_or set sets replicate reverse map sum tabulate concat min max pos suc decided filter".split())


def files(top):
    for folder, dirs, names in os.walk(top):
        dirs[:] = sorted(d for d in dirs if d not in ("out", "target", ".git"))
        for n in sorted(names):
            yield os.path.join(folder, n)


def own_of_function(path):
    """Whether a file lies in the folder of one function."""
    return re.search(r"/proofs/.+/(Proof|Answers|Invariants)\.antt$", path) is not None


def snake(name):
    return re.sub(r"([a-z0-9])([A-Z])", lambda m: m[1] + "_" + m[2].lower(), name)


def spelled(name, functions):
    parts = [p if p[:1].isupper() else snake(p) for p in name.split("-")]
    new = parts[0]
    for a, b in zip(parts, parts[1:]):
        new += ("-" if a in WORDS and (b in functions or b in WORDS) or b in WORDS and a in functions else "_") + b
    return new


def table():
    """The declared names, and the new spelling of each that has one: of a lemma that would have its function's name with `_lem`."""
    declared, specs = set(), set()
    for p in files("crates"):
        if p.endswith(".antt") and not own_of_function(p):
            with open(p) as f:
                text = re.sub(r"(?m)--[^\n]*$", "", f.read())
            names = {m[2] for m in DECLARED.finditer(text)} - {"_", "?"}
            declared |= names
            if "/specs/" in p:
                specs |= names
    functions = {snake(n) for n in specs if "-" not in n and n[:1].islower()}
    rows = {n: spelled(n, functions) for n in declared if "◌" not in n}
    by = {}
    for n, new in rows.items():
        by.setdefault(new, []).append(n)
    for new, names in by.items():
        if len(names) > 1:
            for n in names:
                if n not in specs and not CAMEL.search(n) and (n != new or any(CAMEL.search(m) for m in names)):
                    rows[n] = new + "_lem"
    return declared, {n: new for n, new in sorted(rows.items()) if n != new}


def met(declared, rows):
    """Names that would be one, and that one file has."""
    by = {}
    for n in declared:
        by.setdefault(rows.get(n, n), set()).add(n)
    by = {k: v for k, v in by.items() if len(v) > 1}
    seen = {}
    for p in files("crates"):
        if p.endswith((".antt", ".rt")) and not own_of_function(p):
            with open(p) as f:
                words = set(TOKEN.findall(f.read()))
            for k, v in by.items():
                if len(v & words) > 1:
                    seen.setdefault(k, set()).update(v)
    return seen


def imported(text):
    names = set()
    for m in re.finditer(r"(?m)^(?:pub )?use Rattle\.[^\n{]*\{([^}]*)\}", text):
        names |= {w.split(" as ")[0].strip() for w in m[1].split(",")}
    return names


def turned(text, rows, dashed):
    def one(m):
        word = m[0]
        if word not in rows:
            return word
        plain = not CAMEL.search(word)
        if dashed is None or not plain or (word in dashed and text[m.start() - 1 : m.start()] != "."):
            return rows[word]
        return word

    return TOKEN.sub(one, text)


def antt(path, text, rows):
    dashed = imported(text)
    if not own_of_function(path):
        dashed |= {m[2] for m in DECLARED.finditer(text)}
    out = []
    for line in text.split("\n"):
        at = re.search(r"(?:^|\s)--(?: |$|-)", line)
        code, note = (line[: at.start()], line[at.start() :]) if at else (line, "")
        out.append(turned(code, rows, dashed) + re.sub(r"`[^`]*`", lambda m: turned(m[0], rows, None), turned(note, rows, set())))
    return "\n".join(out)


def rt(text, rows):
    out = []
    for line in text.split("\n"):
        at = re.search(r"//", line)
        code, note = (line[: at.start()], line[at.start() :]) if at and '"' not in line else (line, "")
        if '"' not in code:
            code = turned(code, rows, imported("use Rattle." + code.split("Rattle.", 1)[1]) if "ghost use Rattle." in code else set())
        out.append(code + re.sub(r"`[^`]*`", lambda m: turned(m[0], rows, None), turned(note, rows, set())))
    return "\n".join(out)


def spans(text, rows):
    return re.sub(r"`[^`\n]*`", lambda m: turned(m[0], rows, None), text)


def main(argv):
    declared, rows = table()
    both = met(declared, rows)
    if argv[:1] == ["--check"]:
        for n in sorted(rows):
            print(n, rows[n])
    for k, v in sorted(both.items()):
        print("these names would be one:", k, sorted(v), file=sys.stderr)
    if both:
        return 1
    if argv[:1] == ["--check"]:
        return 0
    for p in list(files("crates")) + [p for p in files("docs") if p.endswith(".md")] + ["README.md"]:
        if not p.endswith((".antt", ".rt", ".edit", ".md")):
            continue
        with open(p) as f:
            text = f.read()
        if p.endswith(".antt"):
            new = antt(p, text, rows)
        elif p.endswith(".rt"):
            new = rt(text, rows)
        elif p.endswith(".edit"):
            new = "\n".join(turned(line, rows, set()) for line in text.split("\n"))
        else:
            new = spans(text, rows)
        if own_of_function(p) and p.endswith("Proof.antt"):
            folder = os.path.basename(os.path.dirname(p))
            old = re.search(r"(?m)^pub (" + NAME + r"[-_]spec) :", new)
            if old:
                new = TOKEN.sub(lambda m: folder + "_spec" if m[0] == old[1] else m[0], new)
        if new != text:
            with open(p, "w") as f:
                f.write(new)
    return 0


if __name__ == "__main__":
    raise SystemExit(main(sys.argv[1:]))
