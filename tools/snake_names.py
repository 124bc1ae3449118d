#!/usr/bin/env python3
"""Brings the names that our specs/ and proofs/ declare to the spelling of today's Rattle: words and fields in snake case, a dash
only where a lemma's name joins two names. Names in quotes in our pages follow. It also writes #![tactic(auto)] at the head of each crate.
Run once, at the top of the repository, behind port.py; it prints the names that met another.

usage: tools/snake_names.py [--list]
"""

import os
import re
import subprocess
import sys

TOKEN = re.compile(r'[^\s(){}.;,@"«»:`]+')
DECLARED = re.compile(r"^( *)(?:abbrev |unfoldable |pub |infix[lr]? \d+ )*([^\s(){}.;,@\"«»:]+) :(?= )")
# The kit's library lies beside the page that `rt doc` names.
STD = os.path.join(os.path.dirname(subprocess.run(["rt", "doc"], capture_output=True, text=True).stdout.strip()), "rattle")
# Lemmas and local names that a definition's new name would meet.
GIVEN_WAY = {name: name + "_lem" for name in ("in_order", "known_results", "step_counts", "take_step")} | {"known-results": "known_results_lem"}
# Definitions that share their new name with a field alone: a projection and a record's text tell them apart.
BESIDE_A_FIELD = ("drawSize", "goesOn", "phoneKeys", "serverKeys")
PROTECTED = re.compile(r"^(?:loop|returns|in|if|match|overflow|bounds|slice_bounds|offset_bounds|invariant|decreases|Need|then|else)-")


def texts(ends=(".antt",)):
    for folder, dirs, files in os.walk("crates"):
        dirs[:] = sorted(d for d in dirs if d != "out")
        for name in sorted(files):
            if name.endswith(ends):
                yield os.path.join(folder, name)


def read(path):
    with open(path, encoding="utf-8") as f:
        return f.read()


def of_function(path):
    """Is it a file of a function's proof: crates/C/proofs/F/..?"""
    parts = path.split("/")
    return parts[2] == "proofs" and len(parts) > 4


def snake(word):
    word = re.sub(r"(?<=[a-z0-9'])([A-Z])(?=[a-z]|$|_)", lambda m: "_" + m[1].lower(), word)
    return re.sub(r"(?<=[a-z])([A-Z]+)(?=$|_|-)", lambda m: "_" + m[1].lower(), word)


def std_words():
    words = set()
    for p in ("core/specs/Prelude.antt", "std/specs/Prelude.antt", "std/proofs/Common.antt", "core/proofs/Common.antt"):
        q = os.path.join(STD, p)
        if os.path.exists(q):
            for inside in re.findall(r"\{([^{}]*)\}", read(q)):
                words |= {w.strip().split(" as ")[-1] for w in inside.split(",")}
    return words


def main():
    fields, words, lemmas, seen = set(), set(), set(), {}
    for path in texts():
        text = read(path)
        if of_function(path):
            continue
        for t in set(TOKEN.findall(re.sub(r"--.*|^use [^{]*", "", text, flags=re.M))):
            seen.setdefault(t, set()).add(path)
        for line in text.split("\n"):
            m = DECLARED.match(line)
            if m and m[2] not in ("use", "mod"):
                (words if path.split("/")[2] == "specs" else lemmas).add(m[2])
                if m[1]:
                    fields.add(m[2])
    for path in texts((".rt",)):
        for line in read(path).split("\n"):
            code = line.split("//")[0]
            bound = re.findall(r"\b([a-z]\w*): ", code) if "fn " in code or code.startswith("    ") else []
            for t in bound + re.findall(r"[^\s(){}.;,]*[a-z0-9][A-Z-][^\s(){}.;,]*", code):
                seen.setdefault(t, set()).add(path)
    known = words | {snake(w) for w in words} | std_words()
    turned = {}
    for name in sorted(words | lemmas):
        if name[0] == "◌" or PROTECTED.match(name) or re.search(r"^[A-Z]\w*$", name):
            continue
        parts = [p if p[:1].isupper() else snake(p) for p in name.split("-")]
        new = parts[0]
        for left, right in zip(parts, parts[1:]):
            joins = name not in words and len(parts) == 2 and (left in known and right in known or left[:1].isupper() or right[:1].isupper())
            new += ("-" if joins else "_") + right
        if name.startswith("-") or new == name:
            continue
        turned[name] = new
    turned |= GIVEN_WAY
    met, taken = [], {}
    # A definition has its name before a lemma does.
    for name in sorted(turned, key=lambda n: (n not in words, n)):
        new = turned[name]
        files = seen.get(name, set())
        clash = [f for f in files if f in seen.get(new, ())] + [f for f in files if f in taken.get(new, ())]
        if clash and name not in GIVEN_WAY and name not in BESIDE_A_FIELD and new not in GIVEN_WAY:
            met.append((name, new, "word" if name in words else "lemma", clash[:3]))
            turned[name] = new = new + "_lem"
        taken.setdefault(new, set()).update(files)
    if "--list" in sys.argv:
        for it in sorted(turned.items()):
            print(*it)
        for it in met:
            print("met:", *it)
        return
    for path in texts((".antt", ".rt")):
        text = read(path)
        rust = path.endswith(".rt")
        own = path.split("/")[-2] if path.endswith("/Proof.antt") else ""
        # A name that this file has from the library stays.
        library = set()
        for module, names in re.findall(r"use ([^\s{;]+)\.\{([^{}]*)\}", text):
            if not (module.startswith("Rattle.") and os.path.isdir(os.path.join("crates", module.split(".")[1]))):
                library |= {n.strip().split(" as ")[0] for n in names.split(",")}

        def turn(m):
            word = m[0]
            if word in library:
                return word
            if own and word == own.replace("_", "-") + "-spec":
                return own + "_spec"
            if rust and re.fullmatch(r"\w+", word) and not re.search(r"[a-z0-9][A-Z]", word):
                return word
            return turned.get(word, word)

        new = TOKEN.sub(turn, text)
        if new != text:
            with open(path, "w", encoding="utf-8") as f:
                f.write(new)
    def in_page(word):
        """Also the names that port.py has turned."""
        plain = snake(word).replace("-", "_")
        return turned.get(word) or (plain if word not in words | lemmas and plain in words | lemmas else word)

    for path in sorted(os.path.join("docs", n) for n in os.listdir("docs")) + ["docs/changes/" + n for n in os.listdir("docs/changes")] + ["README.md"]:
        if path.endswith(".md"):
            text = read(path)
            new = re.sub(r"`[^`\n]*`", lambda m: TOKEN.sub(lambda w: in_page(w[0]), m[0]), text)
            if new != text:
                with open(path, "w", encoding="utf-8") as f:
                    f.write(new)
    for root in sorted(p for p in texts((".rt",)) if p.endswith(("/src/lib.rt", "/src/main.rt"))):
        text = read(root)
        if "#![tactic(auto)]" not in text:
            lines = text.split("\n")
            n = next((i for i, l in enumerate(lines) if not l.startswith("//")), len(lines))
            with open(root, "w", encoding="utf-8") as f:
                f.write("\n".join(lines[:n] + ["#![tactic(auto)]", ""] + lines[n:]))
    for it in met:
        print("met:", *it)


if __name__ == "__main__":
    main()
