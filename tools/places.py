"""Counts the places that docs/DESIGN-PASS.md speaks of.

usage: python3 tools/places.py [CHECKOUT] [--list]

For each point of that page the number of places in the sources below crates/*/src (for point 8: in the proofs), with --list each of them. What a line of the list
says is judged by a reader: an enum that is a choice is no place of point 1, and a `while` that has no counter is none of point 3.
"""
import collections
import difflib
import glob
import itertools
import re
import sys

args = [a for a in sys.argv[1:] if not a.startswith("--")]
root = args[0] if args else "."
listing = "--list" in sys.argv


def code(path):
    """The text of a source without its comments."""
    return "\n".join("" if l.lstrip().startswith("//") else l for l in open(path).read().split("\n"))


sources = {f[len(root) + 1:]: code(f) for f in sorted(glob.glob(root + "/crates/*/src/**/*.rt", recursive=True))}


def find(pattern):
    found = []
    for path, text in sources.items():
        for m in re.finditer(pattern, text, re.M):
            found.append((path, text.count("\n", 0, m.start()) + 1, " ".join(m.group(0).split())))
    return found


def functions():
    for path, text in sources.items():
        for m in re.finditer(r"\bfn (\w+)(?:<[^>]*>)?\(\s*([^)]*)\)", text):
            yield path, text.count("\n", 0, m.start()) + 1, m.group(1), [" ".join(p.split()) for p in m.group(2).split(",") if p.strip()]


def parameters(*wanted):
    return [(p, l, f) for p, l, f, ps in functions() if all(any(re.fullmatch(w, x) for x in ps) for w in wanted)]


def enums():
    found = []
    for path, text in sources.items():
        for m in re.finditer(r"^(?:pub(?:\(crate\))? )?enum (\w+)[^{]*\{(.*?)^\}", text, re.M | re.S):
            body = re.sub(r"\{[^}]*\}|\([^)]*\)", lambda g: "*", m.group(2))
            variants = [v.strip() for v in body.split(",") if v.strip()]
            found.append((path, text.count("\n", 0, m.start()) + 1, m.group(1) + " { " + ", ".join(variants) + " }"))
    return found


def facts():
    times = collections.Counter()
    for text in sources.values():
        for m in re.finditer(r"^\s*requires(?: \w+)? \{(.*?)\}\s*$", text, re.M | re.S):
            for c in m.group(1).split("×"):
                times[" ".join(c.split()).strip(" ()")] += 1
    return [("", n, c) for c, n in times.most_common() if n >= 3]


def bodies():
    """Each longer function, with its types, sizes and constants made one."""
    for path, text in sources.items():
        for m in re.finditer(r"^( *)(?:pub(?:\(crate\))? )?(?:extern \"C\" )?fn (\w+)", text, re.M):
            end = re.search(r"^" + m.group(1) + r"\}", text[m.start():], re.M)
            if end:
                body = re.sub(r"(?:requires|ensures)[^\n]*\n", "", text[m.start():m.start() + end.end()])
                body = re.sub(r"fn \w+", "fn F", body)
                body = re.sub(r"\b(?:u8|u16|u32|u64|usize|words?|bytes?|[eE]lastic|[fF]unnel|read\d+|write\d+|\d+)\b", "T", body)
                body = " ".join(body.split())
                if len(body) > 120:
                    yield path, text.count("\n", 0, m.start()) + 1, m.group(2), body


def twins():
    found = []
    for (p, l, f, x), (q, k, g, y) in itertools.combinations(list(bodies()), 2):
        if abs(len(x) - len(y)) <= 0.25 * max(len(x), len(y)):
            alike = difflib.SequenceMatcher(None, x, y, autojunk=False)
            if alike.real_quick_ratio() > 0.86 and alike.quick_ratio() > 0.86 and alike.ratio() > 0.86:
                found.append((p, l, f"{f}, {q}:{k}: {g}"))
    return found


def lines(pattern):
    return sum(len(open(f).read().split("\n")) - 1 for f in glob.glob(root + pattern, recursive=True))


points = [
    ("1 enums of one's own", enums()),
    ("1 a flag beside a value: fields of type bool", find(r"^ {4}pub \w+: bool,$")),
    ("1 numbers for kinds: fields of a letter, a tag or a reason", find(r"^ {4}pub (?:letter|reason|kind|turn|tag|second): u(?:8|64),$")),
    ("1 a number that says there is none", [x for x in find(r"^ *return (?:0|16|usize::MAX);$")]),
    ("2 functions over two storages told apart by a flag", parameters(r"bytes: bool")),
    ("2 pairs of functions that are alike but for names, types, sizes and constants", twins()),
    ("3 while and loop", find(r"\bwhile [^{\n]*\{|\bloop \{")),
    ("4 equality, order, copying, conversion and printing by hand", [
        (p, l, f) for p, l, f, _ in functions()
        if re.fullmatch(r"same|is_word|copy_in|narrow|gate_name|number|domain_number|draw_level|clear_\w+|fill_\w+|put_\w+|say_\w+|\w+_number|spell\w*|spelt_\w+|smaller|least", f)]),
    ("5 facts in three or more contracts", facts()),
    ("5 functions that take words and flags side by side", parameters(r"words: &(?:mut )?\[\w+\]", r"flags: &(?:mut )?\[\w+\]")),
    ("6 an output and the place in it", parameters(r"out: &mut \[u8\]", r"at: usize")),
    ("6 a line and a place in it", parameters(r"line: &\[u8\]", r"(?:from|to|at|args|end|so_far): usize")),
    ("6 a buffer, an offset and a number of entries", parameters(r"b: &(?:mut )?\[u8\]", r"(?:m|k): u64")),
    ("7 switches on a letter or a flag that says which step", find(r"if [^{\n]*\b(?:letter|bulk|bytes)\b[^{\n]*\{")),
]
for name, found in points:
    print(f"{len(found):6}  {name}")
    if listing:
        for path, line, text in found:
            print(f"            {path}:{line}: {text}" if path else f"            {line} times: {text}")
print(f"{lines('/crates/*/proofs/**/Answers.antt'):6}  8 lines of answers")
print(f"{lines('/crates/*/proofs/**/Invariants.antt'):6}  8 lines of invariants")
