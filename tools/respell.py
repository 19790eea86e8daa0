#!/usr/bin/env python3
"""Brings the repository's own names to the spelling of today's library: words in snake case, modules in camel case.

usage: python3 tools/respell.py [--dry]      at the top of the repository, once, on what port.py left

It turns definitions, lemmas, fields, constructors and variables of specs/ and proofs/, and the clauses in src/ that cite them. Functions of src/, exported
names, strings and comments' English stay. Names that a file takes from the library stay, too. It tells of names that fall together in a file.
"""

import os
import re
import sys

ROOT = "."
WORD = re.compile(r"[A-Za-z_\u0370-\u03ff\u1d2c-\u1d6a\U0001d400-\U0001d7ff][\w'\u1d30-\u1d6a-]*")
CAMEL = re.compile(r"[a-z][a-z0-9]*[A-Z]")
KEPT = {"Rattle"}
# Lemmas that would get their function's name get `_lem`; found by the run of --dry, "together".
LEMMAS = set()
FACTS = {"least-pause": "least_pause_is", "over-current": "over_current"}
TURNED = {"crates/rules/proofs/rows/Replies.antt": {"same_bool": "same_bool_lem", "same_lines": "same_lines_lem"}}
# crates whose proofs speak of the logic's own inside: their words are the logic's
INSIDE = ("crates/lending/", "crates/chuldariin/proofs/")
MODULES = {"rules/proofs/rows": "rules/proofs/Rows", "calls/specs/Contracts": "calls/specs/Answers"}


def files(suffix):
    for folder, dirs, names in os.walk(os.path.join(ROOT, "crates")):
        dirs[:] = sorted(d for d in dirs if d != "out")
        for name in sorted(names):
            if name.endswith(suffix):
                yield os.path.relpath(os.path.join(folder, name), ROOT)


def read(path):
    with open(os.path.join(ROOT, path), encoding="utf-8") as f:
        return f.read()


def snake(word):
    word = re.sub(r"(?<=[a-z0-9])(?=[A-Z])", "_", word)
    word = re.sub(r"(?<=[A-Z])(?=[A-Z][a-z])", "_", word)
    return word.replace("-", "_").lower()


def own_crates():
    return set(os.listdir(os.path.join(ROOT, "crates")))


def taken(text, crates):
    """The names that a file takes from the library."""
    found = set()
    for path, names in re.findall(r"(?m)^\s*(?:pub |ghost )*use ([\w.\u1d30-\u1d6a+'-]+?)(?:\.\{([^}]*)\})?;?\s*$", text):
        parts = path.split(".")
        if parts[0] == "Rattle" and len(parts) > 1 and parts[1] in crates:
            continue
        for name in names.split(","):
            found |= {w.strip() for w in name.split(" as ")}
    return found


def is_walk(path):
    return path.endswith(("/Proof.antt", "/Answers.antt", "/Invariants.antt"))


def declared(texts):
    """The names that the repository's own lemma files and definitions declare at the head of a line, with a dash in them."""
    found = set()
    for path, text in texts.items():
        if is_walk(path) or path.startswith(INSIDE):
            continue
        for line in text.split("\n"):
            m = re.match(r"\s*(?:(?:unfoldable|abbrev|pub|data|record)\s+)*((?:[^\s:(){}]+\s+)*?[^\s:(){}]+)\s*:(?:\s|$)", line)
            if m and not line.lstrip().startswith("--"):
                found |= {w for w in m.group(1).split() if "-" in w and WORD.fullmatch(w)}
    return found


def turn(word, kit, dashed, before):
    if word in kit or word in KEPT:
        return word
    if "-" in word:
        if word in dashed:
            return FACTS.get(word, snake(word) + ("_lem" if word in LEMMAS else ""))
        return word
    if CAMEL.match(word):
        return snake(word)
    return word


def turn_code(text, kit, dashed):
    return WORD.sub(lambda m: turn(m.group(0), kit, dashed, text[: m.start()][-1:]), text)


def turn_comment(text, kit, dashed):
    """English stays; a name in backticks, or one in camel case, is turned."""
    text = re.sub(r"`[^`]*`", lambda m: turn_code(m.group(0), kit, dashed), text)
    return re.sub(r"\b[a-z][a-z0-9]*[A-Z]\w*", lambda m: turn(m.group(0), kit, dashed, ""), text)


def turn_antt(text, kit, dashed):
    out = []
    for line in text.split("\n"):
        at = re.search(r"(?:^|\s)--(?:\s|$)", line)
        head, tail = (line[: at.start()], line[at.start() :]) if at else (line, "")
        out.append(turn_code(head, kit, dashed) + turn_comment(tail, kit, dashed))
    return "\n".join(out)


def clauses(text):
    """The pieces of a source file: (is it a clause, piece)."""
    at, pieces = 0, []
    for m in re.finditer(r"(?m)^\s*(?:pub )?ghost use [^;]*;|^\s*(?:requires|ensures)(?: \w+)? \{", text):
        start, end = m.start(), m.end()
        if m.group(0).endswith("{"):
            depth = 1
            while depth:
                depth += {"{": 1, "}": -1}.get(text[end], 0)
                end += 1
        pieces += [(False, text[at:start]), (True, text[start:end])]
        at = end
    return pieces + [(False, text[at:])]


def locals_of(text):
    """Variables with a dash that a lemma file binds: between the signature's names and the equation sign, in a let, or after a lambda."""
    found = set()
    for line in text.split("\n"):
        code = line.split(" -- ")[0]
        for part in re.findall(r"\u03bb ([^.]*)\.", code):
            found |= {w for w in WORD.findall(part) if "-" in w}
        for part in re.findall(r"let ([^:=]*?)\s*[:=]", code):
            found |= {w for w in WORD.findall(part) if "-" in w}
        for part in re.findall(r"[({]((?:[\w'-]+ )+)[:]", code):
            found |= {w for w in part.split() if "-" in w}
        m = re.match(r"\s*([^:\u2261=]*?) =(?: |$)", code)
        if m:
            found |= {w for w in WORD.findall(m.group(1))[1:] if "-" in w}
    return found


def main(dry):
    crates = own_crates()
    texts = {p: read(p) for p in files(".antt")}
    sources = {p: read(p) for p in files(".rt")}
    dashed = declared(texts)
    together = []
    changed = {}
    camels = {}
    for path, text in texts.items():
        if not path.startswith(INSIDE) and not is_walk(path):
            for w in set(WORD.findall(text)):
                if CAMEL.match(w):
                    camels.setdefault(snake(w), set()).add(path)
    for w in dashed:
        for path in camels.get(snake(w), ()):
            if w in WORD.findall(texts[path]):
                LEMMAS.add(w)
    for path, text in {**texts, **sources}.items():
        if path.startswith(INSIDE) and not path.startswith("crates/lending/") and is_walk(path):
            continue
        kit = taken(text, crates)
        whole = text
        for a, b in TURNED.get(path, {}).items():
            text = re.sub(rf"(?<![\w'-]){a}(?![\w'-])", b, text)
        own = dashed if is_walk(path) or path.endswith(".rt") else dashed | locals_of(text)
        own = own - kit
        if path.startswith("crates/lending/"):
            continue
        if path.endswith(".antt"):
            new = turn_antt(text, kit, own)
        else:
            new = "".join(turn_code(t, kit, own) if clause else t for clause, t in clauses(text))
        for module, to in MODULES.items():
            a, b = module.replace("/", "."), to.replace("/", ".")
            new = re.sub(r"Rattle\." + re.escape(a) + r"(?![\w-])", "Rattle." + b, new)
        code = "\n".join(line.split(" -- ")[0] for line in text.split("\n") if not line.lstrip().startswith("--"))
        words = {w for w in WORD.findall(code)}
        to = {}
        for w in words:
            t = turn(w, kit, own, "")
            if t != w:
                to.setdefault(t, []).append(w)
        for t, ws in to.items():
            if len(ws) > 1 or t in words:
                together.append((path, t, ws, t in words))
        if new != whole:
            changed[path] = new
    for path, t, ws, there in together:
        print(f"together: {path}: {t}: {' '.join(ws)}{' and itself' if there else ''}")
    print(f"{len(changed)} files, {len(dashed)} names with a dash")
    if dry:
        return
    for path, new in changed.items():
        with open(os.path.join(ROOT, path), "w", encoding="utf-8") as f:
            f.write(new)
    for module, to in MODULES.items():
        a, b = (os.path.join(ROOT, "crates", m) for m in (module, to))
        for end in ("", ".antt"):
            if os.path.exists(a + end):
                os.rename(a + end, b + end)
        lib = os.path.join(os.path.dirname(a), "Lib.antt")
        text = read(os.path.relpath(lib, ROOT))
        text = re.sub(rf"(?m)^(pub )?mod {os.path.basename(module)}$", rf"\g<1>mod {os.path.basename(to)}", text)
        with open(lib, "w", encoding="utf-8") as f:
            f.write(text)


if __name__ == "__main__":
    main("--dry" in sys.argv)
