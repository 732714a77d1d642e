#!/usr/bin/env python3
"""Brings the names of this repository's definitions and lemmas to the spelling of today's Rattle.

usage: python3 tools/respell.py [--dry]      at the top of the repository, once, after the toolchain's port.py

Definitions, fields and constructors are in snake case. In a lemma's name a dash joins two names, and a plain
word is added with `_`. Names of goals are Rattle's own and stay, and so do names from src/, strings and comments of src/.
"""
import glob
import re
import sys

SIG = re.compile(r"^(\s*)((?:abbrev |unfoldable |pub )*)(record |data )?([^\s(){}:λ,]+)\s*(?:[{(][^:]*:.*[})]\s*)*:(?:\s|$)")
WORD = re.compile(r"[A-Za-z_\u2081-\u2089][\w']*(?:[-\u2192\u2264\u2261\u2237+][\w']+)*")
# words of the library that lemma names are made of
STD = set(
    """length take drop append get_or set eqb ltb leb cond suc zero add sub mul div rem pow map T Some None Ok Err
    sum max min bit_or bit_and bit_xor shr shl codes decimal encode replicate reverse fold IsTrue slice slice_index
    slice_range List Bool nat_lt nat_le or and not onOk on_ok""".split()
)


# names that would fall together with another by the rule
BY_HAND = {"distance-told": "told-Distance", "is-goal": "at_goal", "pair-node": "pair_node_lt"}


def files():
    for pattern in ("specs/**/*.antt", "proofs/**/*.antt", "src/**/*.rt"):
        yield from sorted(glob.glob("crates/*/" + pattern, recursive=True))


def snake(word):
    word = re.sub(r"(?<=[a-z0-9'])([A-Z])(?=[a-z0-9]|$)", lambda m: "_" + m.group(1).lower(), word)
    return word


def lowered(part):
    """A part in snake case; a part that begins with a capital is a type or a fact and stays."""
    if part == "getD":
        return "get_or"
    return part if part[:1].isupper() else snake(part)


def main():
    dry = "--dry" in sys.argv
    texts = {f: open(f, encoding="utf-8").read() for f in files()}
    goals = set(re.findall(r"\bgoal\.([^\s(){},]+)", "\n".join(texts.values())))
    defined, functions, inner, every = set(), set(), set(), set()
    for f, text in texts.items():
        every |= set(WORD.findall(text))
        if not f.endswith(".antt"):
            continue
        in_type = False
        for line in text.split("\n"):
            m = SIG.match(line)
            if line and not line[0].isspace() and not line.startswith("--"):
                in_type = bool(m and m.group(3)) or line.startswith(("pub record", "pub data", "record", "data"))
            if not m:
                continue
            name = m.group(4)
            if name in goals or name in ("--",):
                continue
            if m.group(1) and in_type:
                inner.add(name)
            defined.add(name)
            if "abbrev" in m.group(2) or "unfoldable" in m.group(2):
                functions.add(name)
    functions = {lowered(n) for n in functions if "-" not in n}
    known = functions | STD
    facts = {n for n in every if re.fullmatch(r"[A-Z]\w*", n)}
    new = {}
    for name in sorted(defined):
        if not re.fullmatch(r"[A-Za-z][\w']*(?:-[\w']+)*", name) or name.startswith("goal"):
            continue
        if name in inner:
            spelled = "_".join(lowered(p) for p in name.split("-"))
        else:
            parts = [lowered(p) for p in name.split("-")]
            spelled = parts[0]
            for before, part in zip(parts, parts[1:]):
                both = (before in known or before in facts) and (part in known or part in facts)
                spelled += ("-" if both else "_") + part
        spelled = BY_HAND.get(name, spelled)
        if spelled != name:
            new[name] = spelled
    # names that fall together
    clash = 0
    seen = {}
    for old, name in sorted(new.items()):
        if name in every:
            print("falls together with a name that stands:", old, name)
            clash += 1
        if name in seen:
            print("fall together:", old, seen[name], name)
            clash += 1
        seen[name] = old
    for f, text in texts.items():
        words = set(WORD.findall(text))
        for old, name in new.items():
            if old in words and name in words and f.endswith(".antt"):
                print("both in one file:", f, old, name)
    print(len(new), "names,", clash, "that fall together")
    if dry:
        for old, name in sorted(new.items()):
            print("   ", old, "->", name)
        return
    for f, text in texts.items():
        def turn(m):
            return new.get(m.group(0), m.group(0))

        if f.endswith(".rt"):
            # in src/ only ghost lines and clauses, and no comments
            out = []
            clause = False
            for line in text.split("\n"):
                stripped = line.strip()
                if stripped.startswith(("ghost ", "requires", "ensures")):
                    clause = True
                out.append(WORD.sub(turn, line) if clause and not stripped.startswith("//") else line)
                if clause and (stripped.endswith(("}", "};", ";")) or stripped == ""):
                    clause = False
            turned = "\n".join(out)
        else:
            turned = WORD.sub(turn, text)
        if turned != text:
            open(f, "w", encoding="utf-8").write(turned)


main()
