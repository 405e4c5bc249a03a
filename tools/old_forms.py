#!/usr/bin/env python3
"""Lists the places in crates/*/src at which docs/DESIGN-PASS.md counts, point by point. Run it at the top of a checkout:
python3 tools/old_forms.py [POINT]. What it finds are candidates; the page says which of them are places."""
import collections
import glob
import os
import re
import sys


def sources():
    for path in sorted(glob.glob("crates/*/src/**/*.rt", recursive=True)):
        with open(path, encoding="utf-8") as file:
            yield path[len("crates/"):].replace("/src/lib.rt", ""), file.read()


def without_comments(text):
    return re.sub(r"//[^\n]*", "", text)


def block(text, start):
    """The text between the braces of which the first stands at or behind start."""
    begin = text.index("{", start)
    depth = 0
    for at in range(begin, len(text)):
        depth += {"{": 1, "}": -1}.get(text[at], 0)
        if depth == 0:
            return text[begin + 1:at]
    raise ValueError("no end of a block")


def functions(text):
    """Name, head with its clauses, and body of each function."""
    text = without_comments(text)
    for found in re.finditer(r"^( *)(?:pub(?:\(crate\))? )?(?:const )?fn (\w+)", text, flags=re.M):
        body = re.compile("^" + found.group(1) + r"\{\n", flags=re.M).search(text, found.end())
        inline = re.compile(r"\{\n").search(text, found.end())
        first = body if body and (not inline or body.start() <= inline.start()
                                  or "ensures" in text[found.end():body.start()]
                                  or "requires" in text[found.end():body.start()]) else inline
        if first:
            yield found.group(2), text[found.start():first.start()], block(text, first.start())


def enums():
    """1: enums of two or three variants of which one carries a refusal, or of two of which one carries a value; and structs and
    enums named as an answer that hold a verdict beside values."""
    for path, text in sources():
        for found in re.finditer(r"^(?:pub(?:\(crate\))? )?enum (\w+)", without_comments(text), flags=re.M):
            inner = re.sub(r"\{[^}]*\}", "{}", block(without_comments(text), found.end()))
            variants = [part.strip() for part in re.split(r",\s*\n", inner) if part.strip()]
            refusal = any(re.match(r"\w+\((Gate)?Refusal\)", one) for one in variants)
            carrying = sum("(" in one or "{" in one for one in variants)
            if refusal or (len(variants) == 2 and carrying):
                yield path, found.group(1), " | ".join(" ".join(one.split()) for one in variants)


def blanked(body):
    body = re.sub(r"\b(?:0x[0-9A-Fa-f_]+|\d[\d_]*)(?:u8|u16|u32|u64|usize)?\b", "N", body)
    body = re.sub(r"\b(?:u8|u16|u32|u64|usize|i8|i32)\b", "T", body)
    body = re.sub(r"\b[A-Z]\w*\b", "T", body)
    return " ".join(body.split())


def twins():
    """2: functions whose bodies are the same but for types, variants, constants and numbers; types with the same fields or
    variants."""
    alike = collections.defaultdict(list)
    for path, text in sources():
        for name, _, body in functions(text):
            if len(body.split()) > 3:
                alike[blanked(body)].append(f"{path} {name}")
        for found in re.finditer(r"^(?:pub(?:\(crate\))? )?(?:enum|struct) (\w+)", without_comments(text), flags=re.M):
            inner = " ".join(block(without_comments(text), found.end()).split()).replace("Gate", "")
            alike[inner].append(f"{path} {found.group(1)}")
    for body, names in sorted(alike.items()):
        if len(names) > 1:
            yield len(names), "; ".join(names), body[:60]


def loops():
    """3: loops that are no `for`, and each `for` over numbers."""
    for path, text in sources():
        for name, _, body in functions(text):
            for found in re.finditer(r"^ *((?:while|loop)\b[^\n]*|for \w+ in [^\n{]*\.\.[^\n]*)", body, flags=re.M):
                yield path, name, found.group(1)


def conversions():
    """4: functions of one value whose body goes by its cases, compares element by element, splits a number into bytes or makes
    one of bytes, or makes digits."""
    for path, text in sources():
        for name, head, body in functions(text):
            signature = head.split("ensures")[0].split("requires")[0]
            one = re.search(r"\((?:&?self|\w+: &?\w+)\)\s*->", signature)
            cases = re.match(r"\s*match \w+ \{(?:\s*[\w:]+(?:\([\w:]*\))? => [\w:()]+(?: as \w+)?,)+\s*\}\s*$", body)
            ladder = one and body.count("return") >= 1 and re.match(r"(?:\s*if \w+ [<=]=? \w+ \{\s*return [^;]*;\s*\})+\s*[^;{}]*$", body)
            parts = re.search(r"/ 256|% 256|\* 256 \+|0x1_0000|0x100\b", body)
            digits = re.search(r"0x30 \+|b'0' \+", body)
            same = re.search(r"if \w+\[i\] != \w+\[i\]", body)
            if (one and cases) or ladder or parts or digits or same:
                yield path, name


def facts():
    """5: facts that stand in the `requires` of three or more functions, and parameters that three or more functions share."""
    seen = collections.defaultdict(set)
    shared = collections.defaultdict(set)
    for path, text in sources():
        for name, head, _ in functions(text):
            for clause in re.findall(r"requires\s+\w*\s*\{(.*)\}\s*$", head, flags=re.M):
                for fact in clause.split("×"):
                    fact = fact.strip()
                    fact = fact[1:-1] if fact.startswith("(") and fact.endswith(")") else fact
                    seen[f"{path}: {fact.strip()}"].add(name)
            signature = head.split("ensures")[0].split("requires")[0]
            names = re.findall(r"(\w+): (?:&mut |&)?[\w\[\]; ]+", signature)
            for size in (3, 4, 5):
                for at in range(len(names) - size + 1):
                    shared[f"{path}: {', '.join(names[at:at + size])}"].add(name)
    for fact, names in sorted(seen.items()):
        if len(names) >= 3:
            yield "fact", fact, len(names)
    for group, names in sorted(shared.items()):
        if len(names) >= 3:
            yield "parameters", group, len(names)


def buffers():
    """6: arrays and slices with a count, a place or a mark for "none" beside them: arrays of fixed length in types and functions."""
    for path, text in sources():
        for found in re.finditer(r"^[^\n]*(?:: |-> |= )\[\w+; \w+\][^\n]*|^[^\n]*let mut \w+ = \[[^\n]*; \w+\];", without_comments(text), flags=re.M):
            yield path, found.group(0).strip()


def switches():
    """7: functions that do nothing but call one of several functions by a value's case."""
    for path, text in sources():
        for name, _, body in functions(text):
            calls = re.findall(r"=> (?:\{\s*)?[a-z_:]+\(", body)
            if len(calls) >= 3 and re.match(r"\s*(?:let \w+ = [\w.]+;\s*)*match ", body):
                yield path, name, len(calls)


def proofs():
    """8: answers, invariants, and lines of proofs, crate by crate."""
    total = [0, 0, 0]
    for crate in sorted(os.listdir("crates")):
        answers = invariants = lines = 0
        for path in glob.glob(f"crates/{crate}/proofs/**/*.antt", recursive=True):
            with open(path, encoding="utf-8") as file:
                text = file.read()
            lines += text.count("\n")
            if path.endswith("/Answers.antt"):
                answers += len(re.findall(r"^pub [\w-]+ : goal\.", text, flags=re.M))
            if path.endswith("/Invariants.antt"):
                invariants += len(re.findall(r"^abbrev pub [\w-]+ : goal\.", text, flags=re.M))
        total = [total[0] + answers, total[1] + invariants, total[2] + lines]
        if lines:
            yield crate, answers, invariants, lines
    yield ("all", *total)


POINTS = {"1": enums, "2": twins, "3": loops, "4": conversions, "5": facts, "6": buffers, "7": switches, "8": proofs}

if __name__ == "__main__":
    for point in sys.argv[1:] or POINTS:
        rows = list(POINTS[point]())
        print(f"== {point}: {len(rows)}")
        for row in rows:
            print("  " + "  ".join(str(part) for part in row))
