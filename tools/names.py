#!/usr/bin/env python3
"""Brings the names of the repository's own definitions and lemmas to the library's spelling: snake case, where port.py left them.

usage: tools/names.py            at the top of a tree that port.py has turned, once
       tools/names.py --list     only prints the names that change, old and new
       tools/names.py --edits    turns the names in crates/*/must-fail/*.edit alone

`totalCost` becomes `total_cost` and `any-cong` `any_cong`. Names of types and modules, of Rust's functions, of the library and of
what Rattle makes itself stay. Where a definition and a lemma would fall together, the lemma gets `_lem`.
"""

import os
import re
import subprocess
import sys

TOKEN = re.compile(r"(?<![+*≤≡≢^%/∙\w-])[^\W\d][\w'?<]*(?:-[\w'?<≡≢≤+*ℕ]+)*")
CAMEL = re.compile(r"[a-z][A-Za-z0-9]*[A-Z]")
COMMENT = {".antt": re.compile(r"--.*"), ".rt": re.compile(r"//.*")}
# What Rattle calls its own, in the text of the old files.
MADE = re.compile(r"(?:tie|goal)\.Need-([\w'-]+)")


def tracked():
    out = subprocess.run(["git", "ls-files", "-co", "--exclude-standard"], capture_output=True, text=True, check=True).stdout
    return [p for p in out.splitlines() if os.path.isfile(p)]


def read(path):
    with open(path, encoding="utf-8") as f:
        return f.read()


def crates(paths):
    return {p.split("/")[1] for p in paths if p.startswith("crates/")}


def imports(text, own):
    """The names that a file takes from libraries."""
    taken = set()
    for m in re.finditer(r"(?m)^(?:ghost )?(?:pub )?use ([\w.+'-]+?)(?:\.\{([^}]*)\})?(?: as .*)?;?$", text):
        parts = m.group(1).split(".")
        if parts[0] == "Rattle" and len(parts) > 1 and parts[1] in own:
            continue
        for name in (m.group(2) or parts[-1]).split(","):
            taken.add(name.split(" as ")[0].strip())
    return taken


def code(path, text):
    return COMMENT[os.path.splitext(path)[1]].sub("", text)


def snake(name):
    name = re.sub(r"(?<=[a-z'])([A-Z])", r"_\1", name)
    return name.replace("-", "_").lower() if not re.match(r"[A-Z]", name) else name.replace("-", "_")


def qualifier(text, at):
    """The name before the dot that stands before `at`."""
    m = re.search(r"([\w'-]+)\.$", text[max(0, at - 60) : at])
    return m.group(1) if m else None


def own_names(paths):
    own = crates(paths)
    laws = [p for p in paths if p.endswith(".antt") and not p.endswith("/Proof.antt")]
    library, found, plain = set(), set(), set()
    for p in paths:
        if p.endswith((".antt", ".rt")):
            library |= imports(read(p), own)
    for p in laws:
        text = read(p)
        modules = {t for t in imports(text, own) if t[:1].isupper()}
        text = code(p, re.sub(r"(?m)^(pub )?use .*$", "", text))
        for m in TOKEN.finditer(text):
            t = m.group(0)
            if t in library or qualifier(text, m.start()) in modules:
                continue
            if "-" in t or (CAMEL.match(t)):
                found.add(t)
            else:
                plain.add(t)
    # own names that the library has too are still own where a use line takes them from an own crate
    for p in laws:
        for m in re.finditer(r"(?m)^(?:pub )?use Rattle\.(\w+)\.(?:specs|proofs)\.(?!declared)[\w.'-]*\.\{([^}]*)\}", read(p)):
            if m.group(1) in own:
                for t in m.group(2).split(","):
                    t = t.strip()
                    if "-" in t or CAMEL.match(t):
                        found.add(t)
    return found, plain, library


def names(paths):
    found, plain, library = own_names(paths)
    words = [set(TOKEN.findall(code(p, read(p)))) for p in paths if p.endswith(".antt") and not p.endswith("/Proof.antt")]
    # The names of what had landed come first, and are the same with unfinished work beside it or without.
    table = os.path.join(os.path.dirname(os.path.realpath(__file__)), "names.tsv")
    new = dict(line.split("\t") for line in read(table).splitlines()) if os.path.isfile(table) else {}
    taken = {s: t for t, s in new.items()}
    for t in sorted(found - set(new), key=lambda t: ("-" in t, t)):
        s = snake(t)
        if s in taken or (s in plain or s in library) and any(t in w and s in w for w in words):
            s += "_lem"
        taken[s] = t
        new[t] = s
    return new


def turn_code(text, new, skip=frozenset(), modules=frozenset()):
    def one(m):
        t = m.group(0)
        if modules and qualifier(text, m.start()) in modules:
            return t
        if t in skip and m.start() > 0 and text[m.start() - 1] == ".":
            return t
        return new.get(t, t)

    return TOKEN.sub(one, text)


def turn_prose(text, new):
    """Names with a hump wherever they stand; those with dashes in backquotes alone, since words of prose have them too."""
    text = re.sub(r"`[^`\n]*`", lambda m: turn_code(m.group(0), new), text)
    humps = {k: v for k, v in new.items() if "-" not in k}
    return turn_code(text, humps)


def turn_edit(text, new):
    """A line of an edit, which port.py leaves: its names, and the forms of paths and projections."""
    text = turn_code(text.replace("Rattle\u00b7", "Rattle."), new)
    text = re.sub(r"\(([\w'₀-₉]+) \.([\w'-]+)\)", r"\1.\2", text)
    return re.sub(r"(?<![\w')])([\w'₀-₉]+) \.(?=[a-z])", r"\1.", text)


def turn(path, text, new, own):
    modules = {t for t in imports(text, own) if t[:1].isupper()}
    ext = os.path.splitext(path)[1]
    if ext == ".md":
        return turn_prose(text, new)
    skip = set()
    if path.endswith("/Proof.antt"):
        for x in MADE.findall(text):
            parts = x.split("-")
            skip |= {"-".join(parts[:i]) for i in range(2, len(parts) + 1)}
    out = []
    for line in text.split("\n"):
        m = COMMENT[ext].search(line)
        at = m.start() if m else len(line)
        if skip:
            head = re.match(r"(?:abbrev )?(?:pub )?([\w'-]+)", line)
            if head and head.group(1) in skip:
                out.append(line[: head.end(1)] + turn_code(line[head.end(1) : at], new, skip, modules) + turn_prose(line[at:], new))
                continue
        out.append(turn_code(line[:at], new, skip, modules) + turn_prose(line[at:], new))
    return "\n".join(out)


def main(argv):
    paths = tracked()
    new = names(paths)
    # What port.py respelled itself, in code alone: the edits and the documents follow.
    by_port = {t: snake(t) for t in read(os.path.join(os.path.dirname(os.path.realpath(__file__)), "names-by-port.txt")).split()}
    if argv == ["--list"]:
        for k in sorted(new):
            print(k, new[k])
        return 0
    for p in paths:
        if p.startswith("crates/") and "/must-fail/" in p:
            text = read(p)
            done = "\n".join(turn_edit(l, by_port | new) if re.match(r"(old|new): ", l) else l for l in text.split("\n"))
        elif argv == ["--edits"]:
            continue
        elif p.startswith("crates/") and p.endswith((".antt", ".rt")) or p == "README.md" or re.fullmatch(r"docs/(landings/)?[\w-]+\.md", p):
            text = read(p)
            done = turn(p, text, by_port | new if p.endswith(".md") else new, crates(paths))
        else:
            continue
        if done != text:
            with open(p, "w", encoding="utf-8") as f:
                f.write(done)
    return 0


if __name__ == "__main__":
    raise SystemExit(main(sys.argv[1:]))
