#!/usr/bin/env python3
"""Respells the repository's own definitions and lemmas: words in snake case, a dash only in names that are not ours.

usage: python3 tools/respell.py [--map FILE]     at the top of the repository, once, right after the kit's port.py

In specs/ and proofs/ each name that is not imported from the kit is respelled; in src/ only what stands in clauses and in `ghost use` lines.
Module paths, names of functions, types, strings and comments stay. Two names of one file that fall together are reported, and nothing is written
(in a Proof.antt, where a function's name stands beside a definition's, they are only reported).
"""
import os
import re
import sys

TOKEN = re.compile(r"[^\s(){}\[\].,;:λ\"@|⌜⌝]+")
WORDS = re.compile(r"^[a-z][\w'-]*$")
# names that would fall together with a definition's: a lemma gets _lem, a constructor says more
LEMMAS = """add-action add-agent add-place agent-fits agent-length agent-typed bare-site bare-tree byte_fits chosen-of end-marks first-at four_bytes
give-touches gives-place has_all is-text keyed-text kind-of load_from moves-left no-agent none_told or-zero own-change place-fits places-but
put-locks put_order put-places put-touches put-used rest-stage row-end row-texts same_text second_at sets-line step-number term_fits touch-sum
tree-line tree-listing tree-of with-agent word-moves at-stage bare-said""".split()
LEMMAS += [name.replace("_", "-") for name in LEMMAS if "_" in name]
OTHERS = {
    "is-action": "is_action_record",
    "is-agent": "is_agent_record",
    "is-touches": "is_touches_record",
    "looks-home": "looks_at_home",
    "not-permitted": "is_not_permitted",
    "other-layout": "is_other_layout",
}
# and of those that another name in the same crate alone falls together with
IN_CRATE = {
    ("language", "too_many"): "says_too_many",
    ("demands", "too_many"): "says_too_many",
    ("demands", "no_place"): "nothing_fits",
    ("parser", "no_place"): "gives_no_place",
    ("typed", "no_place"): "no_place_lem",
    ("lister", "no_place"): "no_place_lem",
}


def spelled(name):
    """The name in snake case: `setOf` and `has-or` are `set_of` and `has_or`."""
    if not re.match(r"^[a-z]", name):
        return name
    name = re.sub(r"(?<=[A-Za-z0-9'])-(?=[A-Za-z0-9])", "_", name)
    name = re.sub(r"(?<=[a-z0-9])([A-Z])(?=[a-z])", lambda m: "_" + m.group(1).lower(), name)
    name = re.sub(r"(?<=[a-z0-9])([A-Z])(?![a-z])", lambda m: "_" + m.group(1).lower(), name)
    return name


def crates(root):
    with open(os.path.join(root, "crates.txt"), encoding="utf-8") as f:
        return {l.split(":")[0].split()[0] for l in f if ":" in l and not l.startswith("#")}


def files(root, ours):
    for c in sorted(ours):
        for part in ("src", "specs", "proofs"):
            for folder, _, names in os.walk(os.path.join(root, "crates", c, part)):
                for n in sorted(names):
                    if n.endswith((".rt", ".antt")):
                        yield os.path.join(folder, n)


def split_code(text, antt):
    """Pieces of a text, each with whether it is to be respelled: not a comment, a string or a path."""
    out, i = [], 0
    pattern = re.compile(r'"(?:[^"\\\n]|\\.)*"|' + (r"(?:(?<=\s)|^)--(?=[\s-]|$)[^\n]*" if antt else r"//[^\n]*"), re.M)
    for m in pattern.finditer(text):
        out.append((text[i:m.start()], True))
        out.append((m.group(0), False))
        i = m.end()
    out.append((text[i:], True))
    return out


USE = re.compile(r"^(\s*(?:pub )?(?:ghost )?use )([^\s{;]+?)(\.\{([^}]*)\}|(?=[\s;])|$)", re.M)


def kit_names(text, ours):
    """Names that a file takes from the kit."""
    taken = set()
    for m in USE.finditer(text):
        p = m.group(2).split(".")
        if p[0] == "Rattle" and len(p) > 1 and p[1] in ours and "declared" not in p:
            continue
        for item in (m.group(4) or "").split(","):
            taken.add(item.strip().split(" as ")[0].strip())
    return taken


def respell_tokens(text, taken, seen, crate):
    def one(m):
        t = m.group(0)
        if t in taken or not WORDS.match(t):
            return t
        if text[max(m.start() - 1, 0):m.start()] == ".":
            return spelled(t)
        n = IN_CRATE.get((crate, t)) or OTHERS.get(t) or (spelled(t) + "_lem" if t in LEMMAS else spelled(t))
        seen.setdefault(n, set()).add(t)
        return n
    return TOKEN.sub(one, text)


def respell_piece(text, taken, seen, crate):
    """Code without comments: paths of `use` lines stay, their items and all else are respelled."""
    out, i = [], 0
    for m in USE.finditer(text):
        out.append(respell_tokens(text[i:m.start()], taken, seen, crate))
        path = m.group(2)
        head = m.group(1) + path
        rest = respell_tokens(m.group(3) or "", taken, seen, crate)
        out.append(head + rest)
        i = m.end()
    out.append(respell_tokens(text[i:], taken, seen, crate))
    return "".join(out)


def clause_spans(text):
    """Where clauses and ghost uses stand in a source text."""
    spans = []
    for m in re.finditer(r"^[ \t]*ghost use [^;]*;", text, re.M):
        spans.append((m.start(), m.end()))
    for m in re.finditer(r"\b(?:requires|ensures)\b[^{;\n]*\{", text):
        depth, i = 1, m.end()
        while depth and i < len(text):
            depth += {"{": 1, "}": -1}.get(text[i], 0)
            i += 1
        spans.append((m.end(), i - 1))
    return sorted(spans)


def respell(path, ours, table):
    crate = path.split("/crates/")[1].split("/")[0]
    with open(path, encoding="utf-8") as f:
        text = f.read()
    taken, seen = kit_names(text, ours), {}
    if path.endswith(".antt"):
        new = "".join(respell_piece(p, taken, seen, crate) if code else p for p, code in split_code(text, True))
    else:
        out, i = [], 0
        for a, b in clause_spans(text):
            out.append(text[i:a])
            out.append(respell_piece(text[a:b], taken, seen, crate))
            i = b
        out.append(text[i:])
        new = "".join(out)
    clash = {n: olds for n, olds in seen.items() if len(olds) > 1 or (n in taken and olds != {n})}
    for n, olds in seen.items():
        for o in olds:
            if o != n:
                table[o] = n
    return text, new, clash


def main():
    root = os.getcwd()
    ours, table, todo, bad = crates(root), {}, [], 0
    for path in files(root, ours):
        text, new, clash = respell(path, ours, table)
        for n, olds in sorted(clash.items()):
            print(f"falls together: {os.path.relpath(path, root)}: {n}: {', '.join(sorted(olds))}")
            bad += not path.endswith("/Proof.antt")
        if new != text:
            todo.append((path, new))
    if bad:
        raise SystemExit(f"{bad} names fall together; nothing was written")
    for path, new in todo:
        with open(path, "w", encoding="utf-8") as f:
            f.write(new)
    if "--map" in sys.argv:
        with open(sys.argv[sys.argv.index("--map") + 1], "w", encoding="utf-8") as f:
            f.writelines(f"{o}\t{n}\n" for o, n in sorted(table.items()))
    print(f"respelled: {len(table)} names in {len(todo)} files")


if __name__ == "__main__":
    main()
