#!/usr/bin/env python3
"""Turns the names of goals and steps in proof files to those that today's Rattle makes.

A dash joins the parts of such a name, and a part that comes from the source keeps its spelling: `returns-in-err-ask-bytes`
is `returns-in_err-ask_bytes`. The parts are taken from the source; names that a file imports from elsewhere stay.
"""
import glob
import re

PART = r"[^\s(){}\[\]⟨⟩:=,;.|λ→×∷+≡]+"
WORDS = {"overflow_add", "overflow_sub", "overflow_mul", "overflow_cast", "in_ok", "in_err", "in_some", "in_none", "in_default", "from_residual", "is_some", "is_none", "is_ok", "is_err", "rotate_left",
         "to_be_bytes", "from_le_bytes", "wrapping_add", "wrapping_sub", "saturating_add", "cast_unsigned", "cast_signed"}


def main():
    words = set(WORDS)
    for path in glob.glob("crates/*/src/**/*.rt", recursive=True):
        words |= set(re.findall(r"\b[a-z][a-z0-9]*(?:_[a-z0-9]+)+\b", re.sub(r"ghost use[^;]*;|//[^\n]*", "", open(path).read())))
    words = sorted(words, key=lambda w: -len(w))
    forms = [(re.compile(rf"(?<![^-]){w.replace('_', '-')}(?![^-])"), w) for w in words]
    for path in sorted(glob.glob("crates/*/proofs/**/*.antt", recursive=True)):
        if path.rsplit("/", 1)[-1] not in ("Answers.antt", "Invariants.antt"):
            continue
        text = open(path).read()
        foreign = set()
        for module, names in re.findall(r"^use (\S+)\.\{([^}]*)\}", text, re.M):
            if not module.endswith((".Goals", ".Given")):
                foreign |= {n for item in names.split(",") for n in item.split(" as ")[-1].split()}

        def turned(match):
            name = match[0]
            if "-" not in name[1:-1] or name in foreign or not re.match(r"[A-Za-z]", name):
                return name
            for form, word in forms:
                name = form.sub(word, name)
            return name

        new = re.sub(PART, turned, text)
        if new != text:
            open(path, "w").write(new)


main()
