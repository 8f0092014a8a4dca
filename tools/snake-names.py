#!/usr/bin/env python3
"""Brings the names of definitions and lemmas to one spelling: words in snake case, types and facts in camel case.

usage: tools/snake-names.py           at the top of the repository: rewrites crates/*/{src,specs,proofs} in place
       tools/snake-names.py --list    prints each old name with its new one, and changes nothing

A name with a dash that this repository defines loses it: 'kind-of' becomes 'kind_of', 'All-there' becomes 'AllThere'. A name
that a file imports from the toolchain, or cites through a module of the toolchain or one that it makes, keeps its spelling.
"""

import os
import re
import sys

ROOT = os.path.join(os.getcwd(), "crates")
OURS = sorted(os.listdir(ROOT))
WORD = re.compile(r"[^\s(){}\[\],;.\"«»⟦⟧⌜⌝λ]+")
NAME = re.compile(r"[A-Za-z][\w'?]*(-[\w'?]+)+")


def respelled(name):
    """A type or a fact, whose first word begins with a capital and has more letters, in camel case; all else in snake case."""
    words = name.replace("getD", "get_or").split("-")
    if words[0][0].isupper() and len(words[0]) > 1:
        return words[0] + "".join(w[0].upper() + w[1:] for w in words[1:])
    return "_".join(w.lower() if len(w) == 1 else w for w in words)


def pieces(text):
    """Cuts an .antt text into comments, strings and the rest."""
    return re.split(r"((?:^|(?<=\s))--(?=\s|$|-)[^\n]*|\"(?:[^\"\\\n]|\\.)*\")", text, flags=re.M)


USE = re.compile(r"^(\s*(?:pub )?(?:ghost )?use )([^\n{;]*?)(?:\.\{([^}]*)\})?((?: as [^\s;]+)?;?)[ \t]*$", re.M)


def is_ours(path):
    """Whether a path names a file of this repository, and not a module that the toolchain makes of one."""
    m = re.match(r"Rattle\.(\w+)\.(specs|proofs)\.(.+)$", path)
    if not m or m.group(1) not in OURS:
        return False
    return os.path.exists(os.path.join(ROOT, m.group(1), m.group(2), *m.group(3).split(".")) + ".antt")


def imports(text):
    """The names that stand for the toolchain's, and the module names that do."""
    foreign, modules = set(), set()
    for m in USE.finditer(text):
        head, path, names, tail = m.groups()
        path = path.strip()
        alias = re.search(r" as ([^\s;]+)", tail or "")
        if names is None and " as " in path:
            path, alias_name = path.split(" as ")
        else:
            alias_name = alias.group(1) if alias else path.split(".")[-1]
        if names is None:
            if not is_ours(path):
                modules.add(alias_name)
            continue
        for part in names.split(","):
            part = part.strip()
            if not part:
                continue
            old, _, new = part.partition(" as ")
            if not is_ours(path):
                foreign.add(old)
    return foreign, modules


def turned_antt(text, report):
    foreign, modules = imports(text)
    uses = {m.start(): m for m in USE.finditer(text)}

    def word(m):
        w = m.group(0)
        if not NAME.fullmatch(w):
            return w
        s, start = m.string, m.start()
        if start and s[start - 1] == ".":
            before = re.search(r"([^\s(){}\[\],;\"«»⟦⟧⌜⌝λ]+)\.$", s[:start])
            root = before.group(1) if before else ""
            if root.split(".")[0] in modules and root.split(".")[0]:
                return w
            if root.startswith("Rattle.") and not is_ours(root):
                return w
            if not before and not s[:start].endswith(")."):
                return w
        if w in foreign:
            return w
        new = respelled(w)
        report.setdefault(w, set()).add(new)
        return new

    out, at = [], 0
    for m in USE.finditer(text):
        out.append(body(text[at:m.start()], word))
        head, path, names, tail = m.group(1), m.group(2), m.group(3), m.group(4)
        line = m.group(0)
        if names is None:
            line = re.sub(r"( as )(\S+)", lambda a: a.group(1) + (respelled(a.group(2)) if NAME.fullmatch(a.group(2)) else a.group(2)), line)
        elif is_ours(path.strip()):
            line = head + path + ".{" + WORD.sub(lambda w: word_plain(w, report), names) + "}" + tail
        else:
            line = head + path + ".{" + re.sub(r"( as )([^\s,}]+)", lambda a: a.group(1) + (respelled(a.group(2)) if NAME.fullmatch(a.group(2)) else a.group(2)), names) + "}" + tail
        out.append(line)
        at = m.end()
    out.append(body(text[at:], word))
    return "".join(out)


def word_plain(m, report):
    w = m.group(0)
    if not NAME.fullmatch(w):
        return w
    report.setdefault(w, set()).add(respelled(w))
    return respelled(w)


def body(text, word):
    parts = pieces(text)
    for i in range(0, len(parts), 2):
        parts[i] = WORD.sub(word, parts[i])
    return "".join(parts)


RESERVED = {"record", "ruleset", "data", "open", "ground", "assumption", "match", "loop", "move", "type", "where", "self", "result", "let", "in", "if", "else", "for", "fn", "use", "mod", "pub", "do"}


def turned_rt(text, report):
    def word(m):
        name = m.group(1)
        new = respelled(name) if NAME.fullmatch(name) else name
        if new != name:
            report.setdefault(name, set()).add(new)
        if re.fullmatch(r"[A-Za-z_]\w*", new) and new not in RESERVED:
            return new
        return "«" + new + "»"

    return re.sub(r"«([^»\n]*)»", word, text)


def main():
    listing = "--list" in sys.argv[1:]
    report = {}
    for crate in OURS:
        for top in ("src", "specs", "proofs"):
            for folder, dirs, files in os.walk(os.path.join(ROOT, crate, top)):
                dirs.sort()
                for f in sorted(files):
                    path = os.path.join(folder, f)
                    if not f.endswith((".rt", ".antt")):
                        continue
                    with open(path, encoding="utf-8") as file:
                        old = file.read()
                    own = {}
                    new = turned_rt(old, own) if f.endswith(".rt") else turned_antt(old, own)
                    words = set(re.findall(r"(?<![\w.'?«-])[A-Za-z_][\w'?]*(?![\w'?-]|\.\w)", re.sub(r"--[^\n]*|//[^\n]*|use [^\n{]*", "", old)))
                    back = {}
                    for a, bs in own.items():
                        for b in bs:
                            back.setdefault(b, set()).add(a)
                            report.setdefault(a, set()).add(b)
                            if b in words and f.endswith(".antt"):
                                print(f"falls together: {path}: {a} and {b}", file=sys.stderr)
                    for b, names in back.items():
                        if len(names) > 1:
                            print(f"falls together: {path}: {' '.join(sorted(names))} all become {b}", file=sys.stderr)
                    if new != old and not listing:
                        with open(path, "w", encoding="utf-8") as file:
                            file.write(new)
    if listing:
        for a in sorted(report):
            print(a, *sorted(report[a]))


main()
