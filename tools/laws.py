#!/usr/bin/env python3
"""Lays the definitions, claims and theorems of two states of the repository beside each other, wherever they stand: in specs/ or in proofs/.

usage: python3 tools/laws.py OLD NEW [--list FILE]     OLD and NEW are folders with crates/; OLD has the spelling of NEW (the kit's port.py and tools/respell.py were run there)

A declaration is known by its crate and its name; of a theorem its statement is compared, of a definition, a record or a data type its whole text. It prints
what is gone and what differs, old and new; --list writes the theorems that moved from specs/ to proofs/, each whole."""
import collections
import glob
import os
import re
import sys

HEAD = re.compile(r"^(\s*)((?:(?:abbrev|unfoldable|pub) )*)(?:(record|data) (?:pub )?)?([^\s(){}:.]+)(?=[\s:({])(.*)$")


def uncommented(text):
    return re.sub(r"(^|\s)--[^\n]*", r"\1", text)


def flat(text):
    return " ".join(text.split())


def declarations(path):
    """Each declaration of a file: its name, whether it is a theorem, and its text (of a theorem its statement)."""
    lines = uncommented(open(path, encoding="utf-8").read()).split("\n")
    blocks, inside = [], []
    for line in lines:
        if re.match(r"\s*(pub )?use ", line) or not line.strip():
            continue
        indent = len(line) - len(line.lstrip())
        inside = [i for i in inside if i < indent]
        if re.match(r"\s*(pub )?module ", line):
            inside.append(indent)
            blocks.append((indent, [line], True))
            continue
        level = inside[-1] + 2 if inside else 0
        starts = indent == level and re.match(r"\s*(?:(?:abbrev|unfoldable|pub|record|data|mutual) )*[^\s(){}:]+(?:, [^\s:]+)* ?:(\s|$)", line)
        starts = starts or (indent == level and re.match(r"\s*(pub )?(record|data) ", line))
        if starts or not blocks:
            blocks.append((indent, [line], False))
        else:
            blocks[-1][1].append(line)
    for indent, text, is_module in blocks:
        if is_module:
            continue
        whole = "\n".join(text)
        m = re.match(r"\s*((?:(?:abbrev|unfoldable|pub) )*)(record |data )?(?:pub )?([^\s(){}:,]+)", whole)
        if not m:
            continue
        name = m.group(3)
        if m.group(2) or "abbrev" in m.group(1) or "unfoldable" in m.group(1):
            yield name, False, flat(whole)
            continue
        statement = []
        for i, line in enumerate(text):
            if i and (re.match(r"\s*unfolding ", line) or re.match(r"\s*" + re.escape(name) + r"(\s|$)", line)):
                break
            statement.append(line)
        yield name, True, flat("\n".join(statement))


def gathered(root):
    found = collections.defaultdict(list)
    for path in sorted(glob.glob(os.path.join(root, "crates/*/specs/**/*.antt"), recursive=True) + glob.glob(os.path.join(root, "crates/*/proofs/**/*.antt"), recursive=True)):
        rest = os.path.relpath(path, os.path.join(root, "crates")).split(os.sep)
        if rest[-1] in ("Lib.antt", "Proof.antt", "Answers.antt", "Invariants.antt"):
            continue
        for name, theorem, text in declarations(path):
            found[rest[0], name].append((rest[1], "/".join(rest[1:]), theorem, text))
    return found


def main():
    old, new = gathered(sys.argv[1]), gathered(sys.argv[2])
    same = moved = 0
    gone, changed, listed = [], [], []
    for (crate, name), each in sorted(old.items()):
        there = list(new.get((crate, name), []))
        for part, path, theorem, text in each:
            if part != "specs":
                continue
            fits = [d for d in there if d[3] == text]
            if fits:
                same += 1
                there.remove(fits[0])
                if fits[0][0] == "proofs":
                    moved += 1
                    if theorem and text.startswith("pub "):
                        listed.append((crate, fits[0][1], text))
                continue
            rest = [d for d in there if d[2] == theorem]
            (changed if rest else gone).append((crate, path, text, rest[0][1:] if rest else None))
    print(f"declarations of specs/: {same} the same ({moved} of them in proofs/ now), {len(changed)} changed, {len(gone)} gone")
    for crate, path, text, _ in gone:
        print(f"gone: {crate}/{path}: {text}")
    for crate, path, text, now in changed:
        print(f"changed: {crate}/{path}\n  - {text}\n  + {now[2]}   ({now[0]})")
    if "--list" in sys.argv:
        with open(sys.argv[sys.argv.index("--list") + 1], "w", encoding="utf-8") as f:
            last = None
            for crate, path, text in sorted(listed):
                if (crate, path) != last:
                    f.write(f"\n`crates/{crate}/{path}`\n\n")
                    last = crate, path
                f.write(f"    {text.removeprefix('pub ')}\n")
        print(f"listed: {len(listed)} theorems")


if __name__ == "__main__":
    main()
