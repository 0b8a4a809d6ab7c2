#!/usr/bin/env python3
"""Brings this repository's own definitions and lemmas to snake case, once, after the kit's port.py.

usage: respell.py [--check]

Words in camel case and names joined by dashes get underscores; a ℕ or ℤ at a word's end gets one before it. Types, facts and modules keep
their capitals, and what Rattle makes or the kit has keeps its spelling, as do names that come from src/. It prints names that would fall
together and stops there. Run it at the top.
"""
import collections
import glob
import os
import re
import sys

HERE = os.path.join(os.path.dirname(os.path.abspath(__file__)), "..", "..")
SEPARATE = r"\s(){}\.,;:λ→=\"«»|\[\]`"
TOKEN = re.compile(rf"[^{SEPARATE}]+")
SIGNED = re.compile(rf"^(\s*)((?:(?:pub|abbrev|unfoldable|record|data) )*)([^{SEPARATE}]+)((?: \{{[^}}]*\}}| \([^:]*:[^)]*\))*) : ")
TYPED = re.compile(r": (tie\.(Need|invariant|decreases)|tie\.\S*(InvT|MeasureT))")


# Names that would be those of fields of src/; and lemmas that would have their definition's name, which get `_lem`.
SPECIAL = {
    "subX": "sub_x_of",
    "subY": "sub_y_of",
    "unitRow": "unit_row_of",
    "unitCol": "unit_col_of",
    "stripeStartY": "stripe_start_y_of",
    "stripeEndY": "stripe_end_y_of",
}
LEMMAS = """box-sum box-squares under-row over-row all-tests six-a six-b stripe-done job-entries last-col legal-taps legal-weights tap-rows
row-tap in-range""".split()


def snake(name):
    if name in SPECIAL:
        return SPECIAL[name]
    if name in LEMMAS:
        return name.replace("-", "_") + "_lem"
    if not re.match(r"[a-z]", name) and "-" not in name:
        return name
    new = name
    if re.match(r"[a-z]", name):
        new = re.sub(r"(?<=[a-z0-9])([A-Z])(?=[a-z0-9]|$)", lambda m: "_" + m[1].lower(), new)
        new = re.sub(r"(?<=[a-z0-9])([ℕℤ])(?=$|-)", r"_\1", new)
    if not re.fullmatch(r"-?\S", name):
        new = re.sub(r"(?<=[^-_])-(?=[^-_])", "_", new)
    return new


def names_of(text, of_proof):
    """Returns the names that a file declares: those it shows, its own, and the fields and constructors, which count as shown."""
    shown, own, parts = set(), set(), set()
    inside = None
    for line in text.split("\n"):
        depth = len(line) - len(line.lstrip())
        if line.strip() and inside is not None and depth <= inside:
            inside = None
        it = SIGNED.match(line)
        if re.match(r"\s*((pub|unfoldable) )*(record|data) ", line):
            inside = depth
        elif not it or line.lstrip().startswith(("--", "use ", "pub use ")) or of_proof and TYPED.search(line):
            continue
        elif inside is not None:
            parts.add(it[3])
            shown.add(it[3])
        else:
            (shown if "pub" in it[2] and not of_proof else own).add(it[3])
    return shown, own, parts


def files(*patterns):
    return sorted(it for p in patterns for it in glob.glob(p, recursive=True) if os.path.isfile(it))


def turn(text, names, aliases, parts=frozenset()):
    def one(it):
        word, at = it[0], it.start()
        if word not in names:
            return word
        if at and text[at - 1] == "." and not text[at - 2 : at - 1].isspace():
            before = re.search(r"([\w-]+)\.$", text[:at])
            if word not in parts and not (before and before[1] in aliases) and not re.search(r"\bRattle\.[\w.+-]*\.$", text[:at]):
                return word
        return names[word]

    return TOKEN.sub(one, text)


def main():
    check = "--check" in sys.argv[1:]
    os.chdir(HERE)
    antt = files("crates/*/specs/**/*.antt", "crates/*/proofs/**/*.antt")
    texts = {it: open(it, encoding="utf-8").read() for it in antt}
    everywhere, here, parts = {}, collections.defaultdict(dict), set()
    of_kit = set()
    for path, text in texts.items():
        shown, own, fields = names_of(text, path.endswith("/Proof.antt"))
        parts |= fields
        everywhere.update((it, snake(it)) for it in shown if snake(it) != it)
        here[path].update((it, snake(it)) for it in own if snake(it) != it)
        for module, listed in re.findall(r"^use (\S+?)\.\{(.*)\}$", text, re.M):
            if not re.match(r"Rattle\.(?!std\b)", module):
                of_kit.update(re.split(r", ?| as ", listed))
    # A name that both the kit and this repository have is left to the file's own use lines.
    clash = {it for it in everywhere if it in of_kit}
    for it in clash:
        print(f"look: {it} is a name of the kit's too")
        del everywhere[it]
    together = collections.defaultdict(set)
    declared = collections.defaultdict(set)
    for path, text in texts.items():
        for it in set().union(*names_of(text, path.endswith("/Proof.antt"))[:2]):
            declared[path].add(it)
    bad = 0
    for path, names in declared.items():
        by = collections.defaultdict(set)
        for it in names:
            by[{**everywhere, **here[path]}.get(it, it)].add(it)
        imported = set()
        for listed in re.findall(r"^use \S+?\.\{(.*)\}$", texts[path], re.M):
            imported.update(it.split(" as ")[-1] for it in re.split(r", ?", listed))
        for it in imported:
            by[everywhere.get(it, it)].add(it)
        for new, old in by.items():
            if len(old) > 1:
                bad = 1
                print(f"together: {path}: {sorted(old)} -> {new}")
    if check or bad:
        print(len(everywhere), "names everywhere,", sum(map(len, here.values())), "in their files")
        return bad
    for path, text in texts.items():
        aliases = set(re.findall(r"^use Rattle\.\S+ as ([\w-]+)$", text, re.M))
        new = turn(text, {**everywhere, **here[path]}, aliases, parts)
        if new != text:
            open(path, "w", encoding="utf-8").write(new)
    # Sources: code has no such names, so only strings are left out.
    for path in files("crates/*/src/**/*.rt"):
        text = open(path, encoding="utf-8").read()
        aliases = set(re.findall(r"^ghost use Rattle\.\S+ as ([\w-]+);$", text, re.M))
        parts = re.split(r'(b?"(?:[^"\\]|\\.)*")', text)
        parts[::2] = [turn(it, everywhere, aliases, parts) for it in parts[::2]]
        if "".join(parts) != text:
            open(path, "w", encoding="utf-8").write("".join(parts))
    for path in files("crates/*/must-fail/*.edit", "tools/edits/**/*"):
        text = open(path, encoding="utf-8").read()
        new = "\n".join(turn(it, everywhere, set(), parts) if re.match(r"(old|new):", it) else it for it in text.split("\n"))
        if new != text:
            open(path, "w", encoding="utf-8").write(new)
    for path in files("README.md", "docs/*.md"):
        text = open(path, encoding="utf-8").read()
        new = re.sub(r"`[^`\n]+`", lambda it: turn(it[0], everywhere, set()), text)
        if new != text:
            open(path, "w", encoding="utf-8").write(new)
    return 0


if __name__ == "__main__":
    sys.exit(main())
