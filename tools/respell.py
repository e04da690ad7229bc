#!/usr/bin/env python3
"""Respells the names that this repository's specs/ and proofs/ declare: words in snake case, a prime as an apostrophe.

Run once at the top of the repository, right after the kit's port.py. It takes the names from the declarations themselves
(definitions, lemmas, fields, bound variables, and the aliases of `ghost use`), so it needs no list. Names that Rattle makes
(`returns-in-ok-x`) and names of the library keep their spelling. It fails where two names would fall together.
"""
import glob
import re
import sys

PART = r"[^\s(){}\[\]⟨⟩:=,;.|λ→×∷+≡]+"
DECLARED = re.compile(rf"^\s*(?:(?:abbrev|unfoldable|data|record|pub) )*({PART})(?: *[({{][^\n]*?)? : ", re.M)
BOUND = [re.compile(rf"\blet ({PART})(?: :| =)"), re.compile(rf"[({{]((?:{PART} )+): ")]
ALIAS = re.compile(rf"({PART}) as ({PART})")
MADE = re.compile(r"^(returns|loop|invariant|decreases|overflow|in|if|then|else|from)-|-requires$")
# aliases that port.py took for names of the library
TAKEN = {"Listed-of": "listed_of", "Filled-is": "filled_is", "plain_of_lem": "plain_of"}


def answers(path):
    return path.rsplit("/", 1)[-1] in ("Answers.antt", "Invariants.antt", "Proof.antt")


def texts():
    paths = [p for d in ("specs", "proofs") for p in glob.glob(f"crates/*/{d}/**/*.antt", recursive=True)]
    return sorted(paths), sorted(glob.glob("crates/*/src/**/*.rt", recursive=True))


def code(line, mark):
    """The line without its comment."""
    at = re.search(rf"(^|\s){mark}(\s|$)", line)
    return (line[: at.start()], line[at.start() :]) if at else (line, "")


def respelled(name):
    return TAKEN.get(name, name.replace("-", "_").replace("′", "'"))


def main():
    antt, rust = texts()
    own, declared = set(), {}
    for path in antt:
        text = "\n".join(code(line, "--")[0] for line in open(path).read().split("\n"))
        found = DECLARED.findall(text)
        for pattern in BOUND:
            found += [w for group in pattern.findall(text) for w in group.split()]
        own |= {n for n in found if "-" in n[1:-1] and not (answers(path) and MADE.search(n))}
        if not answers(path):
            declared[path] = set(DECLARED.findall(text))
    for path in rust:
        for line in open(path):
            if line.lstrip().startswith("ghost use"):
                own |= {a for _, a in ALIAS.findall(line) if "-" in a or a in TAKEN}
    own = {n for n in own if re.match(r"^[^\W\d_]", n)}

    def turned(text):
        return re.sub(PART, lambda m: respelled(m[0]) if m[0] in own or m[0] in TAKEN else m[0], text)

    for path in antt + rust:
        mark = "--" if path.endswith(".antt") else "//"
        lines = []
        for line in open(path).read().split("\n"):
            head, tail = code(line, mark)
            # in a .rt file only ghost text has such names; strings stay
            pieces = re.split(r'("(?:[^"\\]|\\.)*")', head) if mark == "//" else [head]
            lines.append("".join(p if i % 2 else turned(p) for i, p in enumerate(pieces)) + tail)
        open(path, "w").write("\n".join(lines))

    bad = 0
    for path, names in declared.items():
        for a in sorted(names):
            if a in own and respelled(a) in names:
                print(f"{path}: {a} and {respelled(a)} fall together")
                bad = 1
    return bad


sys.exit(main())
