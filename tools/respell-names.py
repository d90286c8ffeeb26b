#!/usr/bin/env python3
"""Brings the repository's own definitions and lemmas to one spelling: words in snake case, types and modules in upper camel case.

usage: tools/respell-names.py        at the top of the repository, right after the kit's port.py and once

It goes by text. A word of more parts (two-le, isCurve, getD-mem) gets underscores (two_le, is_curve, get_or_mem). What stays:
names of types, names that a file imports from another library, labels that Rattle makes of the source in a Proof.antt (they
are turned with that file), strings, and all of Rust but clauses, ghost items and comments. The module `inner` becomes `Inner`.
Two names of one file that would fall together are listed, and nothing is written then.
"""
import glob
import os
import re

NAME = r'[^\s(){}.;,@"«»\x60]+'
DECLARED = re.compile(
    r"(?m)^ *(?:(?:pub|abbrev|unfoldable|pattern|record|data|ruleset|syntax|let) +)*(%s)(?: \{[^{}\n]*\})* :(?= )" % NAME
)
QUIET = re.compile(r'(?:(?<=\s)|^)--[^\n]*', re.M)
USE = re.compile(r"\buse ([^\s;{]+?)\.?(?:\{([^{}]*)\})?(?: as ([^\s;]+))?(?=;|\s*$)", re.M)
# a lemma that would have its function's name
LEMMAS = """
value-by-weight place-of is-weight weight-of-powers reading-of value-at weight-y on-curve
word-grid product-sum y-at in-column outcome-of row-formed with-row record-part
mark-at from-near rest-answer job-opened symbols-at light-places strap-staircase
""".split()



def snake(name):
    name = name.replace("getD", "get_or")
    name = re.sub(r"(?<=[a-z0-9])[A-Z]", lambda m: "_" + m[0].lower(), name)
    return re.sub(r"(?<=[^\W])-(?=[^\W])", "_", name)


INSTEAD = {name: snake(name) + "_lem" for name in LEMMAS} | {"is-series": "series_named"}


def is_word(name):
    """A word of more parts in the older spelling."""
    if not re.match(r"[a-z]", name):
        return False
    return snake(name) != name


def crates():
    return {os.path.basename(c) for c in glob.glob("crates/*") if os.path.isdir(c + "/src")}


def own_path(path, own):
    steps = path.split(".")
    return len(steps) > 1 and steps[0] == "Rattle" and steps[1] in own


def antt_files():
    return sorted(glob.glob("crates/*/specs/**/*.antt", recursive=True) + glob.glob("crates/*/proofs/**/*.antt", recursive=True))


def imported(code, own):
    """The names that a file has from other libraries."""
    names = set()
    for path, items, alias in USE.findall(code):
        if own_path(path, own):
            continue
        for item in (items or "").split(","):
            item = item.strip()
            if item:
                names.add(item.split(" as ")[-1].strip())
    return names


def goals(code):
    """The names in a Proof.antt that answer what Rattle asks, and the names behind `tie.`."""
    names = set(re.findall(r"(?m)^(?:abbrev pub |pub )?(%s) : tie\." % NAME, code))
    return names | set(re.findall(r"\btie\.(%s)" % NAME, code))


def turn_text(text, may):
    out, at = [], 0
    for m in re.finditer(NAME, text):
        word = m[0]
        out.append(text[at : m.start()])
        behind = text[m.start() - 1 : m.start()] == "."
        out.append(may(word, behind, m.start()))
        at = m.end()
    out.append(text[at:])
    return "".join(out)


def main():
    own_crates = crates()
    files = antt_files()
    texts = {f: open(f, encoding="utf-8").read() for f in files}
    codes = {f: QUIET.sub(" ", t) for f, t in texts.items()}
    own, fields = set(), set()
    for f in files:
        if not f.endswith("/Proof.antt"):
            own.update(n for n in DECLARED.findall(codes[f]) if is_word(n))
            for block in re.findall(r"(?m)^(?:abbrev |pub )*record [^\n]*\n((?:[ \t]+[^\n]*\n|\n)*)", codes[f]):
                fields.update(n for n in DECLARED.findall(block) if is_word(n))
    trouble = []
    new = {}
    for f in files:
        code = codes[f]
        lent = imported(code, own_crates)
        is_proof = f.endswith("/Proof.antt")
        asked = goals(code) if is_proof else set()
        local = set(DECLARED.findall(code)) | set(re.findall(r"(?:λ|∀|\() *((?:%s )+): " % NAME, code))
        made = {n for n in asked if is_word(n)}
        turned = {}

        def may(word, behind, at):
            if not is_word(word) or word in lent and not behind:
                return word
            before = code_text[max(0, at - 4) : at]
            if before == "tie.":
                return word
            if is_proof:
                if behind and word not in fields and word not in own:
                    return word
                if not behind and word in made:
                    return word
                if word not in own and word not in declared_here:
                    return word
            elif behind and word not in own:
                return word
            result = INSTEAD.get(word, snake(word))
            turned[word] = result
            return result

        declared_here = {n for n in DECLARED.findall(code) if is_word(n)} - made
        code_text = texts[f]
        # comments turn where the code has the word
        new[f] = turn_text(texts[f], may)
        before = set(re.findall(NAME, re.sub(r"(?m)^(?:pub )?use [^{}\n]*?(?=\.\{| as |$)", " ", code)))
        for old, now in turned.items():
            others = {o for o in turned if o != old and turned[o] == now} | ({now} if now in before and now not in turned else set())
            if others:
                trouble.append(f"{f}: {old} and {sorted(others)} would be {now}")
    for t in sorted(set(trouble)):
        print(t)
    if trouble:
        return 1
    sources = sorted(glob.glob("crates/*/src/**/*.rt", recursive=True) + glob.glob("crates/*/must-fail/*.edit"))
    pages = ["README.md", "CONTRIBUTING.md"] + sorted(glob.glob("docs/**/*.md", recursive=True)) + sorted(glob.glob("include/*.h"))
    for f in sources + pages:
        if not os.path.exists(f):
            continue
        text = open(f, encoding="utf-8").read()

        def may(word, behind, at):
            if word in own and is_word(word):
                return INSTEAD.get(word, snake(word))
            return word

        if f.endswith(".md") or f.endswith(".h"):
            new[f] = re.sub(r"\x60[^\x60\n]+\x60", lambda m: turn_text(m[0], may), text)
        else:
            new[f] = turn_text(text, may)
        texts[f] = text
    count = 0
    for f, t in new.items():
        t = t.replace(".specs.inner.", ".specs.Inner.")
        if f.endswith("/specs/Lib.antt"):
            t = re.sub(r"(?m)^pub mod inner$", "pub mod Inner", t)
        if f.endswith(".md"):
            t = t.replace("specs/inner", "specs/Inner")
        if t != texts[f]:
            count += 1
            with open(f, "w", encoding="utf-8") as out:
                out.write(t)
    for c in sorted(own_crates):
        specs = f"crates/{c}/specs"
        if os.path.exists(specs + "/inner.antt"):
            os.rename(specs + "/inner.antt", specs + "/Inner.antt")
        if os.path.isdir(specs + "/inner"):
            os.rename(specs + "/inner", specs + "/Inner")
    print(f"{len(own)} names of the repository's own, {count} files turned")
    return 0


if __name__ == "__main__":
    raise SystemExit(main())
