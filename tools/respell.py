#!/usr/bin/env python3
"""Spells the repository's own definitions and lemmas as today's Rattle does: words in snake case, modules in camel case.

usage: python3 tools/respell.py      at the top of the repository, once, right after the kit's port.py

It goes over specs/, proofs/, clauses and must-fail edits. Names of the kit, of functions and of what is made for a function's goals keep
theirs, and so do strings. Lines that begin 'meets:' name two names that fall together in a file.
"""

import collections
import os
import re
import subprocess

SEPARATES = r"\s(){}.;,@\"«»\[\]`"
WORD = re.compile(rf"[^{SEPARATES}]+")
OLDER = re.compile(r"[^\W\d_]\d*-[^\W\d_]|^[^\WA-Z].*[a-z0-9][A-Z]")
USE = re.compile(r"(?m)^\s*(?:pub )?use ([^\s{]+?)(?:\.\{([^}]*)\})?(?: as (\S+))?$")
GOAL = re.compile(r"(?m)^(\S+) : (?:tie|goal)\.")
DECLARED = re.compile(r"(?m)^ *(?:(?:pub|abbrev|unfoldable|record|data) )*([^\s(){}.;,@\"«»:]+)(?: \{[^{}\n]*\}| \([^()\n]*\))* :(?= |$)")
# The kit's script had given this lemma the name of its definition already.
ALREADY = ("crates/ptc/proofs/Triggers.antt", r"(?<![.\w])cycle_code(?=[ )])", "cycle_code_lem")
# A lemma on two functions joins their names by a dash.
JOINED = {"getD-mapI": "get_or-map_i", "length-mapI": "length-map_i", "all-mapI": "all-map_i", "alli-mapI": "alli-map_i"}


def plain(name):
    return re.sub(r"(?<=[a-z0-9])[A-Z]", lambda m: "_" + m[0].lower(), name).replace("-", "_")


def spelled(name, meeting=frozenset()):
    return JOINED.get(name) or plain(name) + ("_lem" if name in meeting else "")


def texts(ends):
    for folder, dirs, files in os.walk("crates"):
        dirs[:] = sorted(d for d in dirs if d != "out")
        yield from (os.path.join(folder, f) for f in sorted(files) if f.endswith(ends))


def read(path):
    with open(path, encoding="utf-8") as f:
        return f.read()


def without_comments(text):
    return re.sub(r"--[^\n]*", "", text)


def is_made(path):
    return os.path.basename(path) in ("Proof.antt", "Answers.antt", "Invariants.antt")


def of_the_kit(text):
    names = set()
    for module, listed, _ in USE.findall(text):
        if not module.startswith("Rattle.") or module.startswith("Rattle.std."):
            names |= {w for n in listed.split(",") for w in n.split()}
    return names


def kept(path, text):
    names = of_the_kit(text)
    return names | set(GOAL.findall(text)) if is_made(path) else names


def own_names():
    """What specs/ and the lemmas declare, what is bound in them, and the lemmas that would meet the function that they are about."""
    declared, bound, lemmas, others = set(), set(), set(), set()
    for path in texts(".antt"):
        text = without_comments(read(path))
        skip = kept(path, text)
        here = set(DECLARED.findall(text))
        declared |= {n for n in here if OLDER.search(n) and n not in skip}
        lemmas |= {n for n in here if "-" in n and n not in skip and "/specs/" not in path}
        others |= {n for n in here if "-" not in n} | {n for n in of_the_kit(text) if any(plain(h) == n for h in here)}
        if not is_made(path):
            bound |= {w for w in re.findall(rf"(?<![\w.'-]){WORD.pattern}", USE.sub("", text)) if OLDER.search(w) and w not in skip}
    meeting = {n for n in lemmas if plain(n) in {plain(o) for o in others}}
    return declared, bound, meeting


def turn(text, keep, names, dotted, meeting):
    def word(m):
        name = m[0]
        behind = m.start() and text[m.start() - 1] == "."
        if name in keep and not behind or name not in (dotted if behind else names):
            return name
        return spelled(name, meeting)

    return WORD.sub(word, text)


def by_parts(text, comment, each):
    """Turns code, and in comments what stands in backticks; strings stay."""
    parts = re.split(rf'({comment}[^\n]*|"(?:[^"\\\n]|\\.)*")', text)
    for i, part in enumerate(parts):
        if not part.startswith('"') or i % 2 == 0:
            parts[i] = re.sub(r"`[^`\n]*`", lambda m: each(m[0]), part) if i % 2 else each(part)
    return "".join(parts)


def meets(path, old, names, meeting):
    before = set(WORD.findall(old))
    for n in sorted(before & names):
        if spelled(n, meeting) in before:
            print(f"meets: {path}: {n} and {spelled(n, meeting)}")


def main():
    declared, bound, meeting = own_names()
    names = declared | bound
    for path in texts((".antt", ".rt", ".edit")):
        old = read(path)
        first = re.sub(*ALREADY[1:], old) if path == ALREADY[0] else old
        comment = "--" if path.endswith(".antt") else "//"
        if path.endswith(".edit"):
            skip, here = set(), names
        elif path.endswith(".rt"):
            skip, here = set(), names
        else:
            skip = kept(path, without_comments(old))
            here = names if not is_made(path) else {n for n in names if n in declared}
        new = by_parts(first, comment, lambda t: turn(t, skip, here, declared, meeting))
        new = new.replace(".specs.support", ".specs.Support").replace("specs/support", "specs/Support")
        if path.endswith("specs/Lib.antt"):
            new = new.replace("pub mod support", "pub mod Support")
        if new != old:
            meets(path, old, here - skip, meeting)
            with open(path, "w", encoding="utf-8") as f:
                f.write(new)
    for folder in sorted(os.listdir("crates")):
        for it in ("support.antt", "support"):
            path = os.path.join("crates", folder, "specs", it)
            if os.path.exists(path):
                subprocess.run(["git", "mv", path, path.replace("/support", "/Support")], check=True)
    together = collections.defaultdict(list)
    for n in sorted(declared):
        together[spelled(n, meeting)].append(n)
    for new, old in together.items():
        if len(old) > 1:
            print("meets:", new, old)


if __name__ == "__main__":
    main()
