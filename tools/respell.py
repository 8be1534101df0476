#!/usr/bin/env python3
"""Brings this repository's own names to today's spelling, after port.py: once, at the top.

Definitions, fields and laws that were in camel case are in snake case, and so are names of specs/ that had a dash. A law of proofs/ keeps the
dash that joins two names, as the kit's laws do. Types, modules, what the kit names and what Rattle makes for a proof keep their spelling.
It rewrites crates/*/specs, crates/*/proofs and what the clauses, `ghost use` lines and comments of crates/*/src cite of them.
It prints 'together:' where names of one file would fall together, and 'hidden:' where a parameter or a constant would hide a word of a clause.
"""

import collections
import glob
import os
import re
import sys

WORD = re.compile(r"[^\s(){}\[\],;.«»`\"|⌜⌝]+")
CAMEL = re.compile(r"[a-z][\w'?₀-₉-]*[a-z0-9₀-₉][A-Z][\w'?₀-₉-]*")
# laws that port.py gave an underscore, and that would fall together with a definition
BACK = {w.replace("-", "_"): w for w in "as-step at-first at-second found-after from-field moved-down step-value".split()}
# definitions with a dash that would fall together with another
KEPT = set("at-rim field-kind field-length field-read first-in kept-at masses-after mesh-kind mesh-length mesh-long mesh-read not-above step-length step-read totals-after".split())


def snake(name):
    name = name.replace("getD", "get_or")
    return re.sub(r"(?<=[a-z0-9₀-₉])([A-Z])", lambda m: "_" + m.group(1).lower(), name)


def below(root, kind, ending):
    found = glob.glob(f"{root}/crates/*/{kind}/**/*{ending}", recursive=True)
    return sorted(f for f in found if "/out/" not in f)


def read(path):
    with open(path, encoding="utf-8") as f:
        return f.read()


def of_function(path):
    return path.endswith("/Proof.antt") and "/" in path.split("/proofs/")[-1]


def from_kit(text, crates):
    found = set()
    for m in re.finditer(r"(?m)^(?:pub |ghost )*use ([^\s;{]+)\{([^}]*)\}", text):
        own = re.match(r"Rattle\.(\w+)\.(?:specs|proofs)\.", m.group(1))
        if not (own and own.group(1) in crates):
            found.update(re.findall(r"[^\s,{}]+", m.group(2)))
    return found


def dashed_of_specs(texts):
    """The names with a dash that files of specs/ declare, and the fields of all records."""
    names, fields = set(), set()
    for path, text in texts.items():
        inside = False
        for line in text.split("\n"):
            if line and not line.startswith(" "):
                inside = re.match(r"(pub )?record ", line) is not None
            m = re.match(r"( *)((?:unfoldable |abbrev |pub |data |record )*)([^:(){}=]+?)(?: \{[^}]*\})* :(?: |$)", line)
            if not m or line.lstrip().startswith("--"):
                continue
            words = m.group(3).split()
            if inside and m.group(1):
                fields.update(words)
            if "/specs/" in path or (inside and m.group(1)):
                names.update(w for w in words if w[0].islower() and re.search(r"\w-\w", w))
    return names - KEPT, fields


def main(root):
    crates = {p.split("/")[-2] for p in glob.glob(f"{root}/crates/*/src")}
    texts = {p: read(p) for p in below(root, "specs", ".antt") + below(root, "proofs", ".antt")}
    dashed, fields = dashed_of_specs(texts)
    said = 0

    def turn(word, kit):
        if word in kit:
            return word
        if word in BACK:
            return BACK[word]
        if word == "◌andThen◌":
            return "◌and_then◌"
        if CAMEL.fullmatch(word):
            word = snake(word)
            return word.replace("-", "_") if word in dashed else word
        return word.replace("-", "_") if word in dashed else word

    for path, text in texts.items():
        kit, function = from_kit(text, crates), of_function(path)
        made = set(re.findall(r"(?m)^(?:pub |abbrev )*(\S+) : tie\.", text)) if function else set()
        back = collections.defaultdict(set)
        lines = []
        for line in text.split("\n"):
            code, comment = re.match(r"(.*?)((?:^|(?<= ))--(?: .*)?)?$", line).groups()

            def word(m):
                w = m.group(0)
                path_of_proof = function and code[: m.start()].endswith(".") and not code.startswith("use ")
                if w in made or (path_of_proof and w not in fields and not CAMEL.fullmatch(w)):
                    return w
                new = turn(w, kit)
                if not path_of_proof:
                    back[new].add(w)
                return new

            comment = re.sub(r"`[^`]*`", lambda m: WORD.sub(lambda w: turn(w.group(0), kit), m.group(0)), comment or "")
            comment = WORD.sub(lambda m: snake(m.group(0)) if CAMEL.fullmatch(m.group(0)) else m.group(0), comment)
            lines.append(WORD.sub(word, code) + comment)
        for new, words in sorted(back.items()):
            if len(words) > 1:
                print(f"together: {os.path.relpath(path, root)}: {new} is {', '.join(sorted(words))}")
                said += 1
        if "\n".join(lines) != text:
            with open(path, "w", encoding="utf-8") as f:
                f.write("\n".join(lines))

    for path in below(root, "src", ".rt"):
        text = read(path)
        kit = from_kit(text, crates)
        lines = []
        for line in text.split("\n"):
            code, comment = re.match(r"(.*?)(//.*)?$", line).groups()
            code = WORD.sub(lambda m: m.group(0) if m.group(0) in BACK else turn(m.group(0), kit), code)
            lines.append(code + WORD.sub(lambda m: snake(m.group(0)) if CAMEL.fullmatch(m.group(0)) else m.group(0), comment or ""))
        new = "\n".join(lines)
        code = re.sub(r"//.*", "", new)
        rust = set()
        for m in re.finditer(r"\bfn \w+[^{;]*?\(([^)]*)\)", code):
            rust.update(re.findall(r"([a-z_]\w*):", m.group(1)))
        cited = {w for m in re.finditer(r"(?m)^ghost use [^\n]*\{([^}]*)\}", new) for w in re.findall(r"[^\s,{}]+", m.group(1))}
        before = {w for m in re.finditer(r"(?m)^ghost use [^\n]*\{([^}]*)\}", text) for w in re.findall(r"[^\s,{}]+", m.group(1))}
        for w in sorted(rust & cited - before):
            print(f"hidden: {os.path.relpath(path, root)}: {w} is a parameter's name too")
            said += 1
        if new != text:
            with open(path, "w", encoding="utf-8") as f:
                f.write(new)
    print(f"respell: {len(dashed)} names of specs/ with a dash; {said} to look at")


if __name__ == "__main__":
    main(sys.argv[1] if len(sys.argv) > 1 else ".")
