#!/usr/bin/env python3
"""Brings the names of definitions and lemmas to today's spelling, once, after the kit's own port script.

Words are in snake case, types and facts in camel case; a dash stays only beside a symbol. Names of goals, which the
prover makes, and names from src/ are left alone, as are strings; in comments and pages only names in backticks are
turned. Run at the top of the checkout."""
import collections
import glob
import re
import sys

DECLARATION = re.compile(r"^(?:(?:abbrev|unfoldable|pub|data|record|ruleset)\s+)*([^\s:(){}\[\].,;]+)\s*(?=[:({]|$)")
MEMBER = re.compile(r"^\s+(?:(?:abbrev|unfoldable|pub)\s+)*([^\s:(){}\[\].,;]+(?: [^\s:(){}\[\].,;]+)*) : ")
LOCAL = re.compile(r"\blet ([^\s:(){}\[\].,;]+) [:=]")
ALIAS = re.compile(r"([^\s{},.]+) as ([^\s{},.]+)")
TOKEN = re.compile(r"[^\s(){}\[\].,;:\"`]+")
SYMBOL = re.compile(r"[^A-Za-z0-9_']")
# Names that would fall together with one of the library's or of src/.
OWN = {
    "bit-and": "bit-bit_and",
    "bit-or": "bit-bit_or",
    "bit-xor": "bit-bit_xor",
    "on-tick": "on_tick_of",
}
# Lemmas that a function of src/ has the name of.
LEMMAS = (
    "literal-wording abort-by-first-place hypotheses-needed meanings-decidable permanent-verdicts "
    "raised-satisfies-more clock-removal tops-enough tops-decided verdict-counts-views weak-by-longest-prefix"
).split()


def antt_files():
    return sorted(glob.glob("crates/*/specs/**/*.antt", recursive=True) + glob.glob("crates/*/proofs/**/*.antt", recursive=True))


def lines_of_code(text, mark):
    """Each line, cut into its code and its comment."""
    for line in text.split("\n"):
        at = 0 if line.lstrip().startswith(mark) else line.find(" " + mark)
        if at < 0:
            yield line, ""
        else:
            yield line[:at], line[at:]


def is_generated(path):
    return path.endswith(("/Answers.antt", "/Invariants.antt"))


def declared():
    names = collections.OrderedDict()
    for path in antt_files():
        where = False
        for code, _ in lines_of_code(open(path).read(), "--"):
            if code.startswith("use ") or not code.strip():
                continue
            for name in LOCAL.findall(code):
                names.setdefault(name, path)
            found = DECLARATION.match(code) or MEMBER.match(code)
            if not found or found.group(1).startswith("let "):
                continue
            if is_generated(path) and re.search(r":\s*goal\.", code):
                continue
            if is_generated(path) and re.match(r"(abbrev pub )?(invariant|decreases)-", code):
                continue
            for name in found.group(1).split(" "):
                names.setdefault(name, path)
    return names


def aliases():
    found = {}
    for path in antt_files() + sorted(glob.glob("crates/*/src/**/*.rt", recursive=True)):
        for line in open(path).read().split("\n"):
            if line.startswith(("use ", "ghost use ")):
                for _, alias in ALIAS.findall(line):
                    found[alias] = path
    return found


def spelled(name):
    if name in OWN:
        return OWN[name]
    if name in LEMMAS:
        return name.replace("-", "_") + "_lem"
    if name[0].isupper():
        words = [w for w in re.split(r"[-_]", name) if w]
        if len(words) > 1 and all(re.fullmatch(r"[A-Za-z0-9']+", w) for w in words):
            return words[0] + "".join(w[0].upper() + w[1:] for w in words[1:])
        return name
    parts = name.split("-")
    if len(parts) == 1 or "" in parts:
        return name
    out = parts[0]
    for before, after in zip(parts, parts[1:]):
        joint = "-" if SYMBOL.search(before) or SYMBOL.search(after) else "_"
        out += joint + after
    return out


def turned(found, names):
    name = found.group(0)
    if name in OWN and found.string[: found.start()].endswith("c."):
        return name
    return names.get(name, name)


def rename(text, mark, names):
    out = []
    for code, comment in lines_of_code(text, mark):
        quoted = re.split(r'("(?:[^"\\]|\\.)*")', code)
        for k in range(0, len(quoted), 2):
            quoted[k] = TOKEN.sub(lambda m: turned(m, names), quoted[k])
        out.append("".join(quoted) + in_backticks(comment, names))
    return "\n".join(out)


def in_backticks(text, names):
    return re.sub(r"`[^`]+`", lambda m: TOKEN.sub(lambda k: names.get(k.group(0), k.group(0)), m.group(0)), text)


def rename_edit(text, names):
    return "\n".join(
        line[:5] + TOKEN.sub(lambda m: names.get(m.group(0), m.group(0)), line[5:])
        if line.startswith(("old: ", "new: "))
        else line
        for line in text.split("\n")
    )


def write(path, before, after):
    if after != before:
        open(path, "w").write(after)


def main():
    every = declared()
    every.update(aliases())
    names = {n: spelled(n) for n in every if spelled(n) != n and n not in OWN.values()}
    back = collections.defaultdict(set)
    for old, new in names.items():
        back[new].add(old)
    files = [(p, "--") for p in antt_files()] + [(p, "//") for p in sorted(glob.glob("crates/*/src/**/*.rt", recursive=True))]
    for new, olds in sorted(back.items()):
        if len(olds) > 1:
            print("together:", new, sorted(olds))
    for path, mark in files:
        text = open(path).read()
        tokens = set()
        for code, _ in lines_of_code(text, mark):
            tokens.update(TOKEN.findall(code))
        for token in sorted(tokens):
            if token in names and names[token] in tokens:
                print("already there:", path, token, names[token])
    if "--dry" in sys.argv:
        for old, new in names.items():
            print(old, "->", new)
        return
    for path, mark in files:
        text = open(path).read()
        write(path, text, rename(text, mark, names))
    for path in sorted(glob.glob("crates/*/must-fail/*.edit")):
        text = open(path).read()
        write(path, text, rename_edit(text, names))
    for path in ["README.md"] + sorted(glob.glob("docs/*.md")):
        text = open(path).read()
        write(path, text, in_backticks(text, names))
    print(len(names), "names respelled")


main()
