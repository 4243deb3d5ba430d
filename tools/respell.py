#!/usr/bin/env python3
"""Respells the names that specs/ and proofs/ declare: types in upper camel case, all else in snake case.

usage: python3 tools/respell.py            at the top of the repository
       python3 tools/respell.py --lemmas   the second step, over what the first one left
       with --list   prints old and new, and changes nothing
       with --try    tells which names would fall together in a file, and changes nothing

A name of specs/, a definition, a field, a constructor or a local name gets '_' for each dash. In a lemma's name a
dash stays where it joins two names, as in 'height-turned', and is '_' before a plain word, as in 'piece_found'.
The first step takes for a name what is declared anywhere; the second one, only what the lemma's statement names.
Names of the kit, of Rust code and of goals stay. A name is turned wherever it stands as a whole word: in specs/
and proofs/, and in the clauses and comments of src/. Both were run once: the first right behind the kit's port.py,
the second when all crates proved.
"""

import collections
import glob
import re
import sys

WORD = re.compile(r"[^\s(){}.;,@\"«»`]+")
DECLARED = re.compile(
    r"^(\s*)((?:abbrev |unfoldable )?(?:pub )?(?:(?:record|data|ruleset) )?)((?:[^\s(){};,.:=]+ )+)(?::(?=\s)|\(|=(?=\s))"
)
NOT_NAMES = {"let", "λ", "in", "elim", "module", "where", "infixl", "infixr", "use", "|"}
# words of std that a lemma's name may join
STD = {"length", "append", "take", "drop", "map", "get_or", "sum", "not", "none?"}
# names that would fall together with another, or that a plain change of dashes would leave unreadable
BY_HAND = {
    "none?": "is_empty",
    "same-x": "same_at_x",
    "same-y": "same_at_y",
    "same-z": "same_at_z",
    "tok-at": "tok_at-append",
    "two-word": "is_word-two_word",
    "one-of": "replicate_measure",
    "read-on": "words_at_behind",
    "bit-and": "bit_and-bit",
    "bit-or": "bit_or-bit",
}
# lemmas that the second step names after what their left sides say
LEMMAS_BY_HAND = {
    "joined-map": "flat_map-map",
    "length-joined": "length-flat_map",
    "length-place": "length-place_bytes",
    "length-plane": "length-plane_bytes",
    "length-signed": "length-signed_bytes",
}
# names that do so in one crate alone
BY_HAND_IN = {"crates/grammar/": {"one-word": "is_word-one_word"}}


def kind_of(path):
    return "answers" if re.search(r"/(Answers|Invariants|Choices|Proof)\.antt$", path) else "lemmas"


def snake(part):
    part = re.sub(r"(?<=[a-z0-9])(?=[A-Z])", "_", part)
    return part.lower() if "_" in part else part


def camel(name):
    return "".join(p[:1].upper() + p[1:] for p in name.split("-"))


def needs_change(name):
    return bool(re.search(r"\w-\w|\w-[*+≤<≡∷ℤℕ]|[*+≤<≡ℤℕ]-\w|[a-z][A-Z]|\?", name)) or name in BY_HAND


def files():
    return sorted(
        f
        for part in ("specs", "proofs")
        for f in glob.glob(f"crates/*/{part}/**/*.antt", recursive=True)
    )


def declared(texts):
    """Each declared name: the kinds of its declarations."""
    out = collections.defaultdict(set)
    for path, text in texts.items():
        block = None  # the indentation of the record or data type that the line stands in
        for line in text.split("\n"):
            for alias in re.findall(r" as ([^\s,}.]+)(?=[,}])", line) if line.startswith("use ") else []:
                out[alias].add("local")
            if line.strip().startswith("--") or line.startswith("use ") or not line.strip():
                continue
            indent = len(line) - len(line.lstrip())
            if block is not None and indent <= block:
                block = None
            if re.match(r"\s*(?:pub )?(?:record|data) .*where$", line):
                block = indent
            m = DECLARED.match(line)
            if not m:
                for local in re.findall(r"(?:λ|let|∃) \(?((?:[^\s(){};,.:=]+ ?)+?)(?:\.| :| =)", line):
                    for n in local.split():
                        out[n].add("local")
                continue
            names = m[3].split()
            if names[0] in NOT_NAMES:
                for local in re.findall(r"(?:λ|let) \(?((?:[^\s(){};,.:=]+ ?)+?)(?:\.| :| =)", line):
                    for n in local.split():
                        out[n].add("local")
                continue
            rest = line[m.end():].strip()
            if rest.startswith("goal.") or rest.startswith("tie."):
                out_kind = "goal"
            elif "record" in m[2] or "data" in m[2] or "abbrev" in m[2] or "unfoldable" in m[2]:
                out_kind = "definition"
            elif line[m.end() - 1] == ":":
                out_kind = "spec" if "/specs/" in path or block is not None else "lemma"
            else:
                continue
            for n in names:
                out[n].add(out_kind)
            for local in re.findall(r"[({]((?:[^\s(){};,.:=]+ )+):", line):
                for n in local.split():
                    out[n].add("local")
    return out


def kit_names(text, ours):
    out = set()
    for path, items in re.findall(r"use ([^\s{]+?)\.\{([^}]*)\}", text):
        own = re.match(r"Rattle\.(\w+)\.", path)
        if own and own[1] in ours and not path.endswith((".Goals", ".Given", ".Statement")):
            continue
        for item in items.split(","):
            out.update(item.split())
    return out


def spelling(name, kinds, definitions):
    if name in BY_HAND:
        return BY_HAND[name]
    if name[0].isupper() and "lemma" not in kinds:
        return camel(name)
    if kinds & {"definition", "spec"} or "lemma" not in kinds:
        return "_".join(snake(p) for p in name.split("-"))
    parts = name.split("-")
    # the longest runs of parts that are a definition's name
    words, i = [], 0
    while i < len(parts):
        for j in range(len(parts), i, -1):
            run = "-".join(parts[i:j])
            if run in definitions or "_".join(parts[i:j]) in definitions:
                words.append(("_".join(snake(p) for p in parts[i:j]), True))
                i = j
                break
        else:
            words.append((snake(parts[i]), not re.match(r"^\w+$", parts[i]) or parts[i] in STD))
            i += 1
    out = words[0][0]
    for (a, named), (b, names) in zip(words, words[1:]):
        out += ("-" if named and names else "_") + b
    return out


def table(texts, ours):
    kinds = declared(texts)
    definitions = {n for n, k in kinds.items() if k & {"definition"} and len(n) > 1}
    kit = set().union(*(kit_names(t, ours) for t in texts.values()))
    out = {}
    for name, k in kinds.items():
        if not needs_change(name) or k <= {"goal"}:
            continue
        if name in kit and not k & {"lemma", "definition", "spec"}:
            continue
        new = spelling(name, k - {"goal"}, definitions)
        if new != name:
            out[name] = new
    return out, kinds


def statements(texts):
    """Each lemma whose name has a dash: what its declarations state."""
    out = collections.defaultdict(list)
    for path, text in texts.items():
        lines = text.split("\n")
        for at, line in enumerate(lines):
            m = DECLARED.match(line)
            if not m or line[m.end() - 1] != ":" or line.lstrip().startswith("--"):
                continue
            stated = line[m.end():]
            if stated.strip().startswith("goal."):
                continue
            for name in m[3].split():
                if re.search(r"\w-\w", name):
                    rest = []
                    for after in lines[at + 1:]:
                        if not after.strip() or after.strip().startswith(("unfolding ", "--")) or after.split()[0] == name:
                            break
                        rest.append(after)
                    out[name].append(stated + " ".join(rest))
    return out


def lemma_table(texts):
    out = {}
    for name, stated in statements(texts).items():
        said = [set(WORD.findall(it)) | ({"append"} if "++" in it else set()) for it in stated]
        parts = name.split("-")
        new = parts[0]
        for a, b in zip(parts, parts[1:]):
            new += ("-" if all(a in it and b in it for it in said) else "_") + b
        new = LEMMAS_BY_HAND.get(name, new)
        if new != name:
            out[name] = new
    return out


def turn(text, words, path, ours):
    stay = kit_names(text, ours) - set(declared({path: text}))
    heads = {"c", "w", "l", "g"} if kind_of(path) == "answers" else set()
    holders = {"args", "initial", "fn", "new", "auto", "ranges", "type_inv", "utf8"}

    def one(m):
        word = m[0]
        if word not in words or word in stay:
            return word
        before = text[: m.start()]
        dotted = re.search(r"([^\s(){};,.]+)\.$", before)
        if dotted and "--lemmas" in sys.argv:
            return word
        if dotted:
            chain = re.search(r"((?:[^\s(){};,]+\.)+)$", before)[1].rstrip(".").split(".")
            if chain[0] in ("goal", "tie") and len(chain) == 1:
                return word
            if chain[0] in heads and (len(chain) == 1 or (len(chain) == 2 and chain[1] in holders)):
                return word
        return words[word]

    here = {m[0] for m in WORD.finditer(text)}
    by_new = collections.defaultdict(set)
    for w in here:
        by_new[words[w] if w in words and w not in stay else w].add(w)
    for new, olds in sorted(by_new.items()):
        if len(olds) > 1:
            print("falls together:", path, new, sorted(olds), file=sys.stderr)
    return WORD.sub(one, text)


def main():
    ours = {line.split(":")[0].split()[0] for line in open("crates.txt") if ":" in line}
    texts = {f: open(f, encoding="utf-8").read() for f in files()}
    words, kinds = table(texts, ours)
    if "--lemmas" in sys.argv:
        words, kinds = lemma_table(texts), collections.defaultdict(lambda: {"lemma"})
    if "--list" in sys.argv:
        for old, new in sorted(words.items()):
            print(old, new, ",".join(sorted(kinds[old])), sep="\t")
        return
    for f in files() + sorted(glob.glob("crates/*/src/**/*.rt", recursive=True)):
        text = open(f, encoding="utf-8").read()
        local = dict(words)
        for crate, names in BY_HAND_IN.items():
            if f.startswith(crate) and "--lemmas" not in sys.argv:
                local.update(names)
        new = turn(text, local, f, ours)
        if new != text and "--try" not in sys.argv:
            open(f, "w", encoding="utf-8").write(new)


if __name__ == "__main__":
    main()
