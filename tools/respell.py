#!/usr/bin/env python3
"""respell.py [--check]: brings the names that this repository's definitions and lemmas declare to snake case.

Types, facts and modules keep their capital; every other declared name, a member of a record or a variable gets underscores for its
capitals and its dashes. What is imported from another library keeps its spelling, and so does every name that the code of src/
declares. A pair of names that would fall together is an error. --check writes nothing."""
import pathlib, re, sys

ROOT = pathlib.Path(__file__).resolve().parent.parent / "crates"
NAME = re.compile(r"[^\s(){}\[\];,.:\"@«»`]+")
DECLARED = re.compile(r"^\s*(?:pub |abbrev |unfoldable |ruleset )*(?:record |data )?([^\s(){};,.:]+)(?: [({].*)? :(?: |$)")
BINDER = re.compile(r"[({]([^(){}:]+?) : |λ ([^.(]+)\.|\blet \(?([^=()]+?)\)? (?:=|:)")

# Names that would fall together with one that stands already.
APART = {"roleLive-same": "live_same_at", "has_in": "has_in_lem", "right_by": "right_by_lem", "name-at": "name_at_lem", "takeAll": "take_each"}


def snake(name):
    words = re.sub(r"(?<=[a-z0-9])[A-Z]", lambda m: "_" + m[0].lower(), name)
    return re.sub(r"(?<=[^\s◌])-(?=[^\s◌])", "_", words)


def changes(name):
    return not name[0].isupper() and "◌" not in name and snake(name) != name


def comments_apart(line):
    at = re.search(r"(^|\s)--(\s|$)", line)
    return (line[: at.start()], line[at.start():]) if at else (line, "")


def main():
    antt = [p for p in sorted(ROOT.rglob("*.antt")) if "/out/" not in str(p)]
    rt = [p for p in sorted(ROOT.rglob("*.rt")) if "/out/" not in str(p)]
    own, foreign = set(), set()
    for p in antt:
        for line in p.read_text().splitlines():
            code, _ = comments_apart(line)
            m = DECLARED.match(code)
            if m and " : tie." not in code and not m[1].endswith("-spec"):
                own.add(m[1])
            for b in BINDER.finditer(code):
                own.update(next(g for g in b.groups() if g).replace(",", " ").split())
            u = re.match(r"\s*(?:pub )?use (\S+?)\.\{(.*)\}", code)
            if u and re.match(r"(Prim|mathlib|native|lib|borrow|Rattle\.std)\b", u[1]):
                foreign.update(x.split(" as ")[0].strip() for x in u[2].split(","))
    own = {n for n in own if changes(n)} - foreign
    table = {n: snake(n) for n in own}
    # A lemma that would have its definition's name gets `_lem`.
    for n in own:
        if "-" in n and any(snake(m) == snake(n) for m in own if m != n):
            table[n] = snake(n) + "_lem"
    table.update(APART)
    every = set()
    for p in antt:
        every.update(NAME.findall(p.read_text()))
    meet = {}
    for old, new in table.items():
        meet.setdefault(new, set()).add(old)
    for new, olds in sorted(meet.items()):
        if len(olds) > 1 or new in every:
            print("falls together:", new, sorted(olds), "(stands already)" if new in every else "")
    if "--check" in sys.argv:
        print(len(table), "names")
        return
    edits = sorted(ROOT.rglob("*.edit"))
    pages = [ROOT.parent / "README.md", *sorted((ROOT.parent / "docs").glob("*.md"))]
    turn = lambda text: NAME.sub(lambda m: table.get(m[0], m[0]), text)
    for p in antt:
        p.write_text(turn(p.read_text()))
    for p in rt:
        out = []
        for line in p.read_text().splitlines(keepends=True):
            clause = re.match(r"\s*(ghost use|requires|ensures|ghost)\b", line)
            out.append(turn(line) if clause else line)
        p.write_text("".join(out))
    # an edit's lines; in pages, what stands in backquotes
    for p in edits:
        p.write_text(turn(p.read_text()))
    for p in pages:
        p.write_text(re.sub(r"`[^`\n]+`", lambda m: turn(m[0]), p.read_text()))


main()
