#!/usr/bin/env python3
"""Lists the places in crates/*/src that could be written in a plainer form, by kind, with a count for each.

usage: python3 tools/places.py [FOLDER] [--list]

FOLDER is a checkout (this one, if it is left out). What is listed are lines to look at: a line counts, whether it is meant so or not.
A kept place has a comment line that begins with '// Why'; the last row counts these."""
import collections, itertools, pathlib, re, sys

words = [w for w in sys.argv[1:] if not w.startswith("--")]
top = pathlib.Path(words[0] if words else pathlib.Path(__file__).resolve().parent.parent)
files = {p.relative_to(top): p.read_text() for p in sorted(top.glob("crates/*/src/**/*.rt"))}


def lines(pattern, flags=0):
    """Places where a line fits the pattern."""
    for path, text in files.items():
        for n, line in enumerate(text.split("\n"), 1):
            if re.search(pattern, line, flags) and not line.lstrip().startswith("//"):
                yield f"{path}:{n}", line.strip()


def functions():
    """Each function: its place, name, parameters, contract and body."""
    for path, text in files.items():
        for m in re.finditer(r"^( *)((?:pub(?:\([a-z]+\))? )?fn (\w+).*)$", text, re.M):
            end = re.search(rf"^{m.group(1)}(?:\}}|.*;|.*\}})$", text[m.start(2):], re.M)
            whole = text[m.start(2):m.start(2) + end.end()] if end else m.group(2)
            head, _, body = whole.partition("\n" + m.group(1) + "{\n")
            if not body:
                head, _, body = whole.partition(" {\n")
            contract = "\n".join(l for l in head.split("\n") if re.match(r"\s*(requires|ensures)", l))
            signature = head.split("\n" + m.group(1) + "    ensures")[0].split("\n" + m.group(1) + "    requires")[0]
            params = re.findall(r"[(,]\s*(?:mut )?(\w+): ([^,)\n]+(?:\[[^\]]*\])?)", signature)
            yield f"{path}:{text.count(chr(10), 0, m.start()) + 1}", m.group(3), params, contract, body


def shape(body):
    """A body without what may differ between twins: names of types and constants, numbers, and its own name."""
    body = re.sub(r"//.*", "", body)
    body = re.sub(r"\b(u8|u16|u32|u64|i8|i16|i32|i64|usize)\b", "T", body)
    body = re.sub(r"\b0x[0-9a-f_]+\b|\b\d[\d_]*\b", "N", body)
    body = re.sub(r"\b[A-Z]\w*\b", "C", body)
    return re.sub(r"\s+", "", body)


def twins():
    groups = collections.defaultdict(list)
    for place, name, _, _, body in functions():
        if "#[test]" not in body and shape(body) not in ("", "}"):
            groups[name, shape(body)].append(place)
    for (name, _), places in sorted(groups.items(), key=lambda g: g[1]):
        if len(places) > 1:
            yield " ".join(places), name
    other = collections.defaultdict(list)
    for place, name, _, _, body in functions():
        if body.count("\n") >= 4:
            other[re.sub(r"\b[a-z_]+\b", "v", shape(body))].append((place, name))
    for places in other.values():
        if len({n for _, n in places}) > 1:
            yield " ".join(p for p, _ in places), " ".join(n for _, n in places)


def alike_types():
    """Structs of two fields that have one of them in common, in any crate of the libraries."""
    groups = collections.defaultdict(list)
    for path, text in files.items():
        for m in re.finditer(r"^( *)(?:pub(?:\([a-z]+\))? )?struct (\w+)[^{;]*\{\n(.*?)^\1\}", text, re.M | re.S):
            fields = re.findall(r"^\s+(?:pub(?:\([a-z]+\))? )?(\w+: [^,]+),$", m.group(3), re.M)
            if len(fields) == 2:
                for field in fields:
                    groups[field].append((f"{path}:{text.count(chr(10), 0, m.start()) + 1}", m.group(2)))
    for field, found in sorted(groups.items()):
        if len(found) > 1:
            yield " ".join(p for p, _ in found), f"{' '.join(n for _, n in found)}, each with {field}"


def travelling():
    """Three or more parameters that several functions of a crate take together."""
    groups = collections.defaultdict(set)
    for place, name, params, _, _ in functions():
        crate = place.split("/")[1]
        for some in itertools.combinations(sorted(set(params)), 3):
            groups[crate, some].add(place)
    best = {}
    for (crate, some), places in groups.items():
        if len(places) >= 3:
            best.setdefault((crate, frozenset(places)), set()).update(some)
    for (crate, places), some in sorted(best.items(), key=lambda b: (b[0][0], sorted(b[0][1]))):
        yield " ".join(sorted(places)), ", ".join(n for n, _ in sorted(some))


def repeated_terms():
    """Terms over two or more fields of one value that stand in the contracts of three or more functions."""
    seen = collections.defaultdict(set)
    for place, name, _, contract, _ in functions():
        for term in re.findall(r"\b(?:self|result)(?:\.(?:now|old|new))?\.\w+ (?:self|result)(?:\.(?:now|old|new))?\.\w+", contract):
            seen[place.split("/")[1], re.sub(r"\.(now|old|new)", "", term)].add(place)
        if re.search(r"\.number \}", contract) and re.search(r"result\.flags ≡", contract):
            seen[place.split("/")[1], "a number and its flags, in two clauses"].add(place)
        if "reads.old" in contract and "writes.old" in contract and "board.old" in contract:
            seen[place.split("/")[1], "board and both sheets, before and after"].add(place)
    for (crate, term), places in sorted(seen.items()):
        if len(places) >= 3:
            yield " ".join(sorted(places)), f"{crate}: {term}"


def counted_loops():
    for path, text in files.items():
        for m in re.finditer(r"^( *)for (\w+) in 0\.\.[^{]*\{\n(.*?)^\1\}", text, re.M | re.S):
            if re.search(rf"\[[^\]]*\b{m.group(2)}\b[^\]]*\]", m.group(3)):
                yield f"{path}:{text.count(chr(10), 0, m.start()) + 1}", m.group(0).strip().split("\n")[0]
        for m in re.finditer(r"^( *)(?:for|while|loop)\b[^{]*\{\n(.*?)^\1\}", text, re.M | re.S):
            if re.search(r"\b(\w+) = \1(?:\.wrapping_add\(1\)| \+ 1);|\b\w+ \+= 1;|first = last \+ 1;|next = address\.checked_add", m.group(2)):
                yield f"{path}:{text.count(chr(10), 0, m.start()) + 1}", m.group(0).strip().split("\n")[0]


kinds = {
    "1 own enums with a variant for nothing or for success": lines(r"^\s+(Reserved|Unserved|Permitted|Nothing|Unknown|Invalid|Success|Fine),$"),
    "1 an error in an Option": lines(r"Option<Refusal>"),
    "1 a flag beside a value": lines(r"^\s+pub met: bool|^\s+(pub )?(is|has|was)_\w+: bool"),
    "1 numbers for kinds": itertools.chain(lines(r"fn \w+\((number|kind|subcode|condition|width)(: u8|: u32|\b)"), lines(r"\[u32; 256\]"), lines(r"\bBranch\(u8"), lines(r"\"\", ")),
    "2 twins: functions alike but for a type, a size or a constant": twins(),
    "2 types of two fields, alike but for one": alike_types(),
    "3 loops that count by hand": counted_loops(),
    "3 loop and while": lines(r"^\s*(loop|while)\b"),
    "4 zeros, flags and lines written out": lines(r"^\s+(address: 0|pc: 0|completed: 0|cy: false),$|\{ 1 \} else \{ 0 \}|\{ 8 \} else|\{ 4 \} else|\{ 2 \} else"),
    "4 printing by a function": lines(r"^\s*(pub )?fn (print_|tell_)\w+|fn (letter|\w+_name)\("),
    "4 reading by hand": lines(r"to_digit\(16\)|Some\(word\) => Ok\(word\)|number / 8 % 2 == 1"),
    "4 a field set on a copy, the lesser of two": lines(r"let mut (f|cpu|machine) = (flags|self|machine);|if m < n \{ m \} else \{ n \}"),
    "5 terms over a value's fields in three contracts or more": repeated_terms(),
    "5 parameters that travel together": travelling(),
    "6 an array with a length beside it": lines(r"^\s+(pub )?(len|used): usize,"),
    "7 function pointers, dyn, tables of functions": lines(r"\bdyn\b|\bfn\(|: \[fn"),
    "kept, with a line that says why": iter([(f"{p}:{n}", l.strip()) for p, t in files.items() for n, l in enumerate(t.split("\n"), 1) if l.lstrip().startswith("// Why")]),
}
for kind, found in kinds.items():
    found = list(found)
    print(f"{len(found):4} {kind}")
    if "--list" in sys.argv:
        for place, what in found:
            print(f"       {place}\n           {what[:150]}")
answers = sum(len(re.findall(r"^pub \S+ : goal\.", p.read_text(), re.M)) for p in top.glob("crates/*/proofs/**/Answers.antt"))
lemmas = sum(len(re.findall(r"^(?:abbrev |unfoldable )?(?:pub )?[^\s:]+ :", p.read_text(), re.M)) for p in top.glob("crates/*/proofs/*.antt"))
print(f"{answers:4} 8 answers to goals\n{lemmas:4} 8 lemmas")
