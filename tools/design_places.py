#!/usr/bin/env python3
"""The places that docs/DESIGN-PASS.md counts, in the sources of a commit (default: the working tree). `-l` lists each."""

import difflib
import pathlib
import re
import subprocess
import sys


def sources(commit):
    if commit:
        names = subprocess.run(["git", "ls-tree", "-r", "--name-only", commit], capture_output=True, text=True, check=True).stdout.split()
        names = [n for n in names if re.match(r"crates/[^/]+/(src/.*\.rt|proofs/.*\.antt)$", n)]
        return {n: subprocess.run(["git", "show", f"{commit}:{n}"], capture_output=True, text=True, check=True).stdout for n in names}
    files = [p for pattern in ("crates/*/src/**/*.rt", "crates/*/proofs/**/*.antt") for p in pathlib.Path(".").glob(pattern)]
    return {str(p): p.read_text() for p in files}




def functions(text):
    """Name, parameters, result, clauses and body of each function."""
    for m in re.finditer(r"^( *)(?:pub(?:\([a-z]+\))? )?(?:extern \"C\" )?fn (\w+)", text, re.M):
        indent, name = m.group(1), m.group(2)
        end = text.find("\n" + indent + "}\n", m.end())
        if end < 0:
            continue
        whole = text[m.start() : end]
        start = whole.find("(")
        depth = 0
        for i in range(start, len(whole)):
            depth += whole[i] == "("
            depth -= whole[i] == ")"
            if depth == 0:
                break
        parameters = [p for p in re.sub(r"\s+", " ", whole[start + 1 : i]).split(", ") if p.strip()]
        behind = whole[i + 1 :]
        cut = behind.find("\n" + indent + "{\n")
        clauses, body = (behind[:cut], behind[cut:]) if cut >= 0 else ("", behind)
        result = re.match(r"\s*->\s*([^\n{]*)", behind)
        yield name, parameters, (result.group(1).strip() if result else ""), clauses, body


def shape(body):
    """A body without its names and numbers."""
    body = re.sub(r"//[^\n]*", "", body)
    seen = {}

    def mask(m):
        word = m.group(0)
        if word in ("let", "mut", "if", "else", "while", "for", "in", "return", "match", "as", "true", "false"):
            return word
        if re.match(r"\d|b'", word):
            return "0"
        return seen.setdefault(word, f"v{len(seen)}")

    return re.sub(r"\s+", " ", re.sub(r"b'[^']*'|\b\w+\b", mask, body))


def places(files):
    code = {n: t for n, t in files.items() if n.endswith(".rt")}
    found = {key: [] for key in ("1 enums", "1 flags", "1 numbers of refusals", "1 numbers of kinds", "2 twins", "3 loops", "4 by hand", "5 parameters", "5 facts", "6 buffers", "7 switches", "8 answers")}
    bodies = []
    for n, t in code.items():
        for m in re.finditer(r"^(?:pub )?enum (\w+)[^{]*\{(.*?)^\}", t, re.M | re.S):
            if re.search(r"^ +(No|Nothing|Refused|Unknown|None)\b", m.group(2), re.M):
                found["1 enums"].append(f"{n}: {m.group(1)}")
        for m in re.finditer(r"^(?:pub )?struct (\w+)[^{;]*\{(.*?)^\}", t, re.M | re.S):
            if re.search(r"^ +(pub )?(good|more): bool|^ +(pub )?refused: u32", m.group(2), re.M) or m.group(1) in ("Found",) or (m.group(1) == "Refusal" and "number" in m.group(2)):
                found["1 flags"].append(f"{n}: {m.group(1)}")
        for m in re.finditer(r"^pub const [A-Z_]+: u32 = \d+;.*$", t, re.M):
            if not re.search("ROUNDS|STEPS|Q:", m.group(0)):
                found["1 numbers of refusals"].append(f"{n}: {m.group(0)}")
        for m in re.finditer(r"\b(set|kind|party|which|sender|receiver|side): (u32|usize)", t):
            found["1 numbers of kinds"].append(f"{n}: {m.group(0)}")
        for m in re.finditer(r"^ +(while .*)$", t, re.M):
            rest = t[m.end() : m.end() + 900]
            if re.search(r"^\s*(\w+) [+-]= 1;", rest, re.M):
                found["3 loops"].append(f"{n}: {m.group(1)}")
        for m in re.finditer(r"^ +requires .*$", t, re.M):
            if re.search(r"set < 2|shape\.n ≤ 8|ShapeReady|Ready |Whole |GateFits|TermsFit|DealSlices|LentToLine|RoomForRun|SplitsBelow|Room |factor_list", m.group(0)):
                found["5 facts"].append(f"{n}: {m.group(0).strip()[:90]}")
        for m in re.finditer(r"^ +match (rule|call) \{", t, re.M):
            found["7 switches"].append(f"{n}: {m.group(0).strip()}")
        for name, parameters, result, clauses, body in functions(t):
            where = f"{n}: {name}"
            if result == "u32" and re.search(r"\b\w+_no\b|\bask_\w+|\brefused\b|take_door", clauses):
                found["1 numbers of refusals"].append(where)
            if len(parameters) >= 7:
                found["5 parameters"].append(f"{where} ({len(parameters)})")
            if any("out: &mut [u8]" in p for p in parameters) and any(p == "at: usize" for p in parameters):
                found["6 buffers"].append(where)
            if name in BY_HAND:
                found["4 by hand"].append(where)
            if body.count(";") >= 2 or len(body) > 120:
                bodies.append((where, shape(body)))
    taken = set()
    for i, (a, s) in enumerate(bodies):
        if a in taken:
            continue
        group = [a] + [b for b, r in bodies[i + 1 :] if b not in taken and abs(len(s) - len(r)) < 0.08 * len(s) and difflib.SequenceMatcher(None, s, r, autojunk=False).ratio() > 0.94]
        if len(group) > 1:
            taken.update(group)
            found["2 twins"].append(" = ".join(group))
    found["8 answers"] = [f"{n}: {t.count(chr(10))}" for n, t in files.items() if n.endswith(("Answers.antt", "Invariants.antt"))]
    return found


# Equality, order, copying, conversion and printing that the library has (found by reading).
BY_HAND = set("least copy_numbers copy_bytes lacks clear_block clear less less_by less_than wide difference size magnitude is_sending is_taking is_finished is_word is_byte is_digit is_blank move_to entry_at multiple times last_bits reversed no_refusal end_digits put_party put_call put_last_digit put_digits hex_digit".split())


def main():
    arguments = [a for a in sys.argv[1:] if a != "-l"]
    found = places(sources(arguments[0] if arguments else None))
    for point, lines in found.items():
        print(f"{point}: {len(lines)}")
        if "-l" in sys.argv and not point.startswith("8"):
            for line in lines:
                print(f"    {line}")


main()
