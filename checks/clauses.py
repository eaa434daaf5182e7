"""Makes docs/CLAUSES.md from the comments of specs/: for each clause of IEEE 1800-2017 that stands before a definition, the
definition and its file.

With --check it writes nothing, and fails where the page isn't what the comments give.
"""
import pathlib
import re
import sys

TOP = pathlib.Path(__file__).resolve().parent.parent
PAGE = TOP / "docs" / "CLAUSES.md"
HEAD = """# From clauses of the standard to definitions

For each clause of IEEE 1800-2017 that the comment before a definition names: the definitions, with their files under `crates/`. `python3 checks/clauses.py` makes this page from those comments, and `.ci/run` compares it. What a definition says is told in its file; MEANING.md, MACHINE.md and the pages on tokens, expressions, statements and constants tell them in their order.

| clause | definitions |
|---|---|
"""
CLAUSE = re.compile(r"(?<![\w.])(?:[1-9]\d?|[A-Z])(?:\.\d+)+(?![\w])")
DECLARED = re.compile(r"^(?:abbrev |unfoldable )?(?:pub )(?:record |data )?([^\s({]+)")


def clauses_of(comment):
    found = []
    for inside in re.findall(r"\(([^()]*)\)", comment):
        found += CLAUSE.findall(inside)
    return found


def definitions(path):
    """The clauses and the name of each public definition of a file."""
    comment = []
    for line in path.read_text().splitlines():
        text = line.strip()
        if text.startswith("--"):
            comment.append(text[2:].strip())
            continue
        declared = DECLARED.match(text)
        if declared and comment and not text.startswith("pub mod"):
            yield clauses_of(" ".join(comment)), declared.group(1)
        comment = []


def key(clause):
    return [(0, int(part), "") if part.isdigit() else (1, 0, part) for part in clause.split(".")]


def page():
    rows = {}
    for path in sorted(TOP.glob("crates/*/specs/*.antt")):
        for clauses, name in definitions(path):
            for clause in clauses:
                files = rows.setdefault(clause, {})
                names = files.setdefault(str(path.relative_to(TOP / "crates")), [])
                if name not in names:
                    names.append(name)
    lines = []
    for clause in sorted(rows, key=key):
        told = "; ".join(", ".join(f"`{name}`" for name in names) + f" in {file}" for file, names in rows[clause].items())
        lines.append(f"| {clause} | {told} |")
    return HEAD + "\n".join(lines) + "\n"


def main():
    made = page()
    if "--check" in sys.argv[1:]:
        if not PAGE.exists() or PAGE.read_text() != made:
            print("docs/CLAUSES.md: not what the comments of specs/ give; run python3 checks/clauses.py")
            sys.exit(1)
        print("docs/CLAUSES.md: as the comments of specs/ give it")
        return
    PAGE.write_text(made)


main()
