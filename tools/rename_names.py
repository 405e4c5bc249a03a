#!/usr/bin/env python3
"""Brings the names of definitions, fields, constructors and lemmas of this repository to snake case.

usage: python3 tools/rename_names.py            at the top of the repository, once, after the kit's own script

A name is renamed where a file of specs/ or proofs/ declares it, in every file of crates/: in .antt files everywhere, in .rt files
inside ghost items and clauses. Where two names fall together, the lemma gets _lem behind it. Types, modules, the names that the
check makes (goals and steps), and whatever src/ declares keep their names.
"""

import os
import re
import sys

# What ends a name in antt.
STOP = " \t\n(){}[],;.:`\"|"
TOKEN = re.compile(r"[^\s(){}\[\],;.:`\"|]+")
WORDS = {"use", "mod", "module", "let", "unfolding", "open", "where", "in", "record", "data", "abbrev", "pub", "unfoldable", "opaque"}
SIGNATURE = re.compile(r"\s*((?:(?:abbrev|opaque|unfoldable|pub|instance|record|data|ruleset)\s+)*)([^\s(){}\[\],;:.=|@`\"]+)(?:\s*[({][^=]*)?\s*:(?:\s|$)")

# Lemmas and fields that have the name already which a definition gets.
APART = {
    "crates/net_exchange/specs/ReadBack.antt": {"read_count": "read-count"},
    "crates/net_exchange/proofs/Requests.antt": {"read_count": "read-count"},
    "crates/net_exchange/proofs/Exchange.antt": {"read_count": "read-count"},
    "crates/c_link/proofs/States.antt": {"is_state": "is_state_lem"},
    "crates/c_link/proofs/hanraquin_receive/Proof.antt": {"is_state": "is_state_lem"},
    "crates/c_link_send/proofs/Kept.antt": {"is_state": "is_state_lem"},
    "crates/net_journey/proofs/Start.antt": {"at_zero": "at_zero_lem"},
}


def files(root, endings):
    for folder, dirs, names in os.walk(os.path.join(root, "crates")):
        dirs[:] = sorted(d for d in dirs if d != "out")
        for name in sorted(names):
            if name.endswith(endings):
                yield os.path.join(folder, name)


def read(path):
    with open(path, encoding="utf-8") as f:
        return f.read()


def declared(root):
    """The names that specs/ and proofs/ declare: those of specs/, and those of proofs/ alone."""
    specs, proofs = set(), set()
    for path in files(root, ".antt"):
        if os.path.basename(path) == "Proof.antt":
            continue
        into = specs if "/specs/" in path else proofs
        for line in read(path).split("\n"):
            m = SIGNATURE.match(re.sub(r"--.*", "", line))
            if m and m[2] not in WORDS and ": goal." not in line:
                into.add(m[2])
    return specs, proofs - specs


def of_library(root):
    """The names that come from the library in some file."""
    found = set()
    own = {c for c in os.listdir(os.path.join(root, "crates"))}
    for path in files(root, (".antt", ".rt")):
        for m in re.finditer(r"(?m)^(?:pub )?(?:ghost )?use ([^\s{]+?)\.\{([^}]*)\}", read(path)):
            parts = m[1].split(".")
            if not (parts[0] == "Rattle" and len(parts) > 1 and parts[1] in own):
                found |= {n.strip().split(" as ")[-1] for n in m[2].split(",")}
    return found


def snake(name):
    return re.sub(r"(?<=[a-z0-9])([A-Z])", lambda m: "_" + m[1].lower(), name)


def ghost_parts(text):
    """Where ghost items and clauses stand: from their word to the end of the braces."""
    parts, i = [], 0
    for m in re.finditer(r"(?m)^\s*(?:pub )?(ghost|requires|ensures)\b", text):
        if m.start() < i:
            continue
        k = text.find("{", m.end())
        deep = 0
        while k < len(text):
            deep += (text[k] == "{") - (text[k] == "}")
            k += 1
            if deep == 0:
                break
        parts.append((m.start(), k))
        i = k
    return parts


def names_in(path):
    """The names that a file may mean, but for those in paths; of a .rt file those of its ghost parts, and of what it declares with a type."""
    if path.endswith("/Proof.antt"):
        return set()
    text = read(path)
    declared_there = set()
    if path.endswith(".rt"):
        declared_there = set(re.findall(r"\b(\w+):(?!:)", text))
        text = " ".join(text[i:k] for i, k in ghost_parts(text))
    else:
        text = "\n".join(l for l in text.split("\n") if not l.lstrip().startswith("--"))
    text = re.sub(r"\bRattle\.[^\s{]*\.(?=[{A-Z]|\w+ as)", "", text)
    text = re.sub(r"\bRattle\.\S* as ", "", text)
    return set(TOKEN.findall(text)) | declared_there


def table(root):
    specs, proofs = declared(root)
    skip = of_library(root)
    is_low = lambda n: re.match(r"[a-z]", n) and (re.search(r"[a-z0-9][A-Z]", n) or "-" in n)  # noqa: E731
    turned = lambda n: snake(n).replace("-", "_")  # noqa: E731

    # Two names may fall together where no file has both; where one has, the later one, a lemma, gets _lem.
    near = {}
    for path in files(root, (".antt", ".rt")):
        tokens = names_in(path)
        for name in tokens:
            near.setdefault(name, set()).update(tokens)
    to, left = {}, []
    taken = {}
    for name in near:
        taken.setdefault(name, set()).add(name)
    for group in (sorted(n for n in specs if "-" not in n), sorted(n for n in specs if "-" in n), sorted(proofs)):
        for name in group:
            if not is_low(name):
                continue
            if name in skip:
                left.append(name)
                continue
            new = turned(name)
            if new == name:
                continue
            if any(other in near.get(name, ()) for other in taken.get(new, ())):
                new += "_lem"
            if any(other in near.get(name, ()) for other in taken.get(new, ())):
                left.append(name)
                continue
            taken.setdefault(new, set()).add(name)
            to[name] = new
    return to, left


def turn_tokens(text, to):
    return TOKEN.sub(lambda m: to.get(m[0], m[0]), text)


def turn_antt(text, to):
    lines = []
    for line in text.split("\n"):
        code, dash, comment = line.partition("--") if line.lstrip().startswith("--") else (line, "", "")
        if dash:
            # In a comment only what can be nothing but a name: camel case, or in backticks.
            comment = TOKEN.sub(lambda m: to.get(m[0], m[0]) if re.search(r"[a-z][A-Z]", m[0]) else m[0], comment)
            comment = re.sub(r"`[^`]*`", lambda m: turn_tokens(m[0], to), comment)
            lines.append(code + dash + comment)
        else:
            lines.append(turn_tokens(line, to))
    return "\n".join(lines)


def turn_rt(text, to):
    out, i = [], 0
    for start, end in ghost_parts(text):
        out += [text[i:start], turn_tokens(text[start:end], to)]
        i = end
    return "".join(out) + text[i:]


def main():
    root = os.getcwd()
    for path, words in APART.items():
        if os.path.isfile(os.path.join(root, path)):
            with open(os.path.join(root, path), "r+", encoding="utf-8") as f:
                text = re.sub(r"(?m)^(use Rattle\.\S*)|[^\n]+", lambda m: turn_tokens(m[0], words), f.read())
                f.seek(0)
                f.truncate()
                f.write(text)
    to, left = table(root)
    count = 0
    for path in files(root, (".antt", ".rt")):
        text = read(path)
        new = turn_antt(text, to) if path.endswith(".antt") else turn_rt(text, to)
        if new != text:
            count += 1
            with open(path, "w", encoding="utf-8") as f:
                f.write(new)
    print(f"{len(to)} names turned in {count} files")
    if "--list" in sys.argv:
        for name in sorted(to):
            print(name, to[name])
    for name in left:
        print("left:", name)
    clash = {n for n in to.values() if n.endswith("_lem")}
    for name in sorted(clash):
        print("apart:", name)


if __name__ == "__main__":
    main()
