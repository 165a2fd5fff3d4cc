#!/usr/bin/env python3
"""Spells the definitions and lemmas of this repository in snake case, in every crate, edit and page.

usage: tools/respell.py      (once, at the top, after the kit's port.py)

A name that a file of specs/ or proofs/ declares and that begins with a small letter is turned: `rowLength` to
`row_length`, `start-next` to `start_next`. Two names that would fall together, and names that would meet a field of
the source, have their new names in TABLE. Types, modules, constants, functions of src/, exported names and strings
keep theirs. A second run changes nothing.
"""

import glob
import re

# Names that would fall together with another: a lemma that would have a definition's name gets `_lem`.
TABLE = {
    "one-listed": "one_listed_lem",
    "one-short": "one_short_lem",
    "keyDowns": "row_key_downs",
    "key-downs-at": "key_downs_at_lem",
    "minusZero": "is_minus_zero",
    "last-is": "last_is_lem",
    "slope-block": "slope_block_is",
    "rate-ok": "rate_ok_lem",
    "run-residual": "run_residual_lem",
    "run-evidence": "run_evidence_lem",
    "run-taken": "run_taken_lem",
    "run-figures": "run_figures_lem",
    "estimate-figures": "estimate_figures_lem",
    "clean-figures": "clean_figures_lem",
    "residual-figures": "residual_figures_lem",
    "evidence-figures": "evidence_figures_lem",
    "row-figures": "row_figures_lem",
    "classes-figures": "classes_figures_lem",
    "up-to": "up_to_lem",
    "run-told": "run_told_lem",
    "find-told": "find_told_lem",
    "fit-told": "fit_told_lem",
    "estimate-told": "estimate_told_lem",
    "sine-right": "sine_right_lem",
    "arctan-right": "arctan_right_lem",
    "small-sine": "small_sine_lem",
    "small-cosine": "small_cosine_lem",
    "is-skipped": "is_skipped_lem",
    "measures-of": "measures_of_lem",
    "refSample": "ref_sample_of",
    "storedFits": "fits_stored",
    "hotFraction": "hot_fraction_of",
    "LN-10": "LN_10",
    "LN-2": "LN_2",
    "native·pos": "native_pos",
}
# The kit's port.py has spelled these lemmas like a definition that is turned here: by the crate that declares them.
LEMMAS = {
    "half_up": ("float", "half_up_lem"),
    "goes_on": ("format", "goes_on_lem"),
    "counts_of": ("elements", "counts_of_lem"),
    "row_told": ("strong", "row_told_lem"),
}
# Names that the logic's library has too, and that files here import from there.
LEFT = {"and-false", "and-true"}
NAME = r"[^\s(){}.;,@\"«»\[\]\\]+"
DECLARED = re.compile(
    r"^\s*(?:pub )?(?:abbrev |unfoldable |opaque )*(?:pub )?(?:record |data |inductive |field )?([^\s:(){}]+)\s*:(?!=)",
    re.M,
)


def read(path):
    with open(path, encoding="utf-8") as it:
        return it.read()


def snake(name):
    words = re.sub(r"(?<=[a-z0-9])[A-Z]", lambda it: "_" + it[0].lower(), name)
    return words.replace("-", "_")


def declared():
    out = {}
    for path in glob.glob("crates/*/specs/**/*.antt", recursive=True) + glob.glob("crates/*/proofs/*.antt"):
        for it in DECLARED.findall(re.sub(r"--[^\n]*", "", read(path))):
            out.setdefault(it, set()).add(path)
    return out


def renamings():
    out = {}
    for it in declared():
        new = TABLE.get(it) or snake(it)
        if (it[0].islower() or it in TABLE) and new != it and it not in LEFT:
            out[it] = new
    for it in declared():
        if it in out.values() and it not in LEMMAS and out.get(it, it) == it:
            raise SystemExit(f"{it}: another name would fall together with it")
    return out


class Spelled(dict):
    """The renamings, and those that port.py has made itself: a page's word whose new spelling is declared."""

    now = set()

    def get(self, word, other):
        new = super().get(word, None) or snake(word)
        return new if word[:1].islower() and (word in self or new in self.now) else other


def in_code(text, names, comment):
    """Turns the tokens of a text of antt; in a comment only those in camel case and those between backticks."""
    token = re.compile(comment + r"[^\n]*|\"(?:[^\"\\\n]|\\.)*\"|«[^»]*»|" + NAME)

    def one(found):
        it = found[0]
        if it.startswith(comment.replace("\\", "")):
            return in_prose(it, names)
        return it if it[0] in '"«' else names.get(it, it)

    return token.sub(one, text)


def in_prose(text, names):
    names, camel = Spelled(names), {k: v for k, v in names.items() if re.search("[a-z0-9][A-Z]", k)}
    text = re.sub(r"[A-Za-z][A-Za-z0-9]*(?:-[a-z0-9]+)*", lambda it: camel.get(it[0], it[0]), text)
    return re.sub(r"`([^`\n]+)`", lambda it: "`" + re.sub(NAME, lambda w: names.get(w[0], w[0]), it[1]) + "`", text)


def in_source(text, names):
    """Turns a file of Rattle: its `ghost use` lines, its clauses, and its comments."""

    def clause(found):
        return found[1] + in_code(found[2], names, "//")

    out, at = [], 0
    head = re.compile(r"(\bghost use |\b(?:requires|ensures)\*?(?: \w+)? (?=\{)|//)")
    while True:
        found = head.search(text, at)
        if not found:
            return "".join(out) + text[at:]
        out.append(text[at : found.end()])
        at = found.end()
        if found[0] == "//":
            end = text.find("\n", at)
            out.append(in_prose(text[at:end], names))
        elif found[0].startswith("ghost"):
            end = text.find(";", at)
            out.append(in_code(text[at:end], names, "//"))
        else:
            depth, end = 0, at
            while True:
                depth += {"{": 1, "}": -1}.get(text[end], 0)
                end += 1
                if not depth:
                    break
            out.append(in_code(text[at:end], names, "//"))
        at = end


def main():
    names = renamings()
    Spelled.now = {names.get(it, it) for it in declared()}
    lemmas = {}
    for old, (crate, new) in LEMMAS.items():
        for path in declared().get(old, ()):
            if path.startswith(f"crates/{crate}/proofs/") or old == "half_up":
                lemmas.setdefault(old, (new, set()))[1].add(path)
    changed = 0
    for path in sorted(
        glob.glob("crates/*/specs/**/*.antt", recursive=True)
        + glob.glob("crates/*/proofs/**/*.antt", recursive=True)
        + glob.glob("crates/*/src/**/*.rt", recursive=True)
        + glob.glob("crates/*/must-fail/*.edit")
        + ["README.md", "CONTRIBUTING.md"]
        + glob.glob("docs/*.md")
    ):
        text = read(path)
        now = text
        for old, (new, where) in lemmas.items():
            module = "|".join(p.rsplit("/", 1)[1][:-5] for p in where)
            uses = re.search(r"use \S+\.(?:%s)\.\{[^}]*\b%s\b" % (module, old), now)
            if path in where or uses:
                now = re.sub(r"(?<![\w.-])%s(?![\w-])" % old, new, now)
        if path.endswith(".antt"):
            now = in_code(now, names, "--")
        elif path.endswith(".rt"):
            now = in_source(now, names)
        elif path.endswith(".edit"):
            camel = re.compile(r"(?<![\w-])[a-z][a-z0-9]*[A-Z]\w*(?:-\w+)*")
            now = camel.sub(lambda it: Spelled(names).get(it[0], it[0]), now)
        else:
            now = in_prose(now, names)
        if now != text:
            changed += 1
            with open(path, "w", encoding="utf-8") as it:
                it.write(now)
    print(f"{len(names)} names, {changed} files")


main()
