#!/usr/bin/env python3
"""Brings the names that this repository's specs/ and proofs/ declare to one spelling, in place.

usage: python3 tools/spell_names.py [--list]        once, at the top of the repository, right after the scripts that turn its older
                                                    spelling; --list only prints what would change

Words are in snake case, types and facts in upper camel case: `figureOf` becomes `figure_of`, `figure-of-decimal` becomes
`figure_of_decimal`, `Every-run-is-kept` becomes `EveryRunIsKept`. A name that a goal has (`goal.NAME`), a name that a file
takes from elsewhere, and every name of Rust code stay as they are. It stops where two names would become one.
"""

import os
import re
import sys

ROOTS = ("crates",)
OUTSIDE = re.compile(r"^\s*(?:pub )?(?:ghost )?use (?!Rattle\.(?:CRATES)\.)([^{]*)\{([^}]*)\}", re.M)
DECLARES = re.compile(
    r"^[ \t]*(?:abbrev |unfoldable )?(?:pub )?(?:data |record )?([^\s(){}\[\]:;,=.]+)(?:[ \t]+(?:\([^)]*\)|\{[^}]*\}))*[ \t]*:(?=\s)", re.M)
FIELD_ON = re.compile(r"^[ \t]*pub ([^:=]*[^\s:=]) :(?=\s)", re.M)
WORD = r"(?<![\w'\-◌·])%s(?![\w'\-◌·])"
# a lemma on a function's value keeps the dash behind the function's name
HEADS = {"length-": "length-", "weigh-": "weigh-", "sumTo-": "sum_to-", "rowAt-": "row_at-", "itemAt-": "item_at-", "firstFrom-": "first_from-", "getD-": "get_or-"}
# names that would fall together with another, and what they become
APART = {
    "band-fits": "band_fits_lem", "contract-listed": "contract_listed_lem", "margins-fit": "margins_fit_lem", "mark_set": "mark_set_lem",
    "market-after": "market_after_lem", "name-bytes": "name_bytes_lem", "of-contract": "of_contract_lem", "product-listed": "product_listed_lem",
    "same-side": "same_side_lem", "spot-fits": "spot_fits_lem", "surcharge-for": "surcharge_for_lem", "terms-fit": "terms_fit_lem",
    "cashIn": "cash_in_of", "cashOut": "cash_out_of", "indicator-low": "indicator_is_low", "goesOn": "session_goes_on", "sameName": "is_same_name",
}


def texts():
    for root in ROOTS:
        for folder, dirs, files in os.walk(root):
            dirs[:] = sorted(d for d in dirs if d != "out")
            for f in sorted(files):
                if f.endswith((".antt", ".rt", ".edit")):
                    yield os.path.join(folder, f)


def read(path):
    with open(path, encoding="utf-8") as f:
        return f.read()


def spelled(name):
    if name in APART:
        return APART[name]
    for head, kept in HEADS.items():
        if name.startswith(head):
            return kept + spelled(name[len(head):])
    if "-" in name and name[0].isupper():
        return "".join(p[0].upper() + p[1:] for p in re.split(r"[-_]", name) if p)
    if name[0].isupper():
        return name
    return re.sub(r"([a-z0-9])([A-Z])", lambda m: m.group(1) + "_" + m.group(2).lower(), name.replace("-", "_"))


def declared(text):
    goals = set(re.findall(r"goal\.([^\s(){}.,;]+)", text))
    names = {m.group(1) for m in DECLARES.finditer(text)}
    for m in FIELD_ON.finditer(text):
        names |= set(m.group(1).split()) if re.fullmatch(r"[\w' -]+", m.group(1)) else set()
    return {n for n in names if n not in goals and not n.startswith("--") and re.match(r"[A-Za-z]", n)}


def main():
    files = {p: read(p) for p in texts()}
    crates = "|".join(sorted(os.listdir("crates")))
    outside = re.compile(OUTSIDE.pattern.replace("CRATES", crates), re.M)
    names = set()
    for p, text in files.items():
        if p.endswith(".antt"):
            names |= declared(text)
    change = {n: spelled(n) for n in names if spelled(n) != n}
    into = {}
    for n in sorted(names):
        into.setdefault(spelled(n), []).append(n)
    bad = [f"{v} all become {k}" for k, v in sorted(into.items()) if len(v) > 1]
    for p, text in files.items():
        foreign = {w for m in outside.finditer(text) for w in re.split(r"[\s,]+", m.group(2)) if w}
        for old, new in change.items():
            if old in foreign or not re.search(WORD % re.escape(old), text):
                continue
            if re.search(WORD % re.escape(new), text) and p.endswith(".antt"):
                bad.append(f"{p}: {old} would meet {new}")
    if "--list" in sys.argv:
        for old, new in sorted(change.items()):
            print(old, "->", new)
    if bad:
        print("\n".join(bad), file=sys.stderr)
        raise SystemExit(1)
    if "--list" in sys.argv:
        return
    for p, text in files.items():
        foreign = {w for m in outside.finditer(text) for w in re.split(r"[\s,]+", m.group(2)) if w}
        use = {o: n for o, n in change.items() if o not in foreign and o in text}
        if not use:
            continue
        any_of = "|".join(re.escape(o) for o in sorted(use, key=len, reverse=True))
        new = re.sub(WORD % f"({any_of})", lambda m: use[m.group(1)], text)
        if new != text:
            with open(p, "w", encoding="utf-8") as f:
                f.write(new)


main()
