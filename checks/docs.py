#!/usr/bin/env python3
"""Finds what a page tells and the code lacks.

    checks/docs.py

Read are README.md, docs/*.md and crates/*/README.md. Told between backticks are files and names.

- A path that names a folder of the repository is there. `nt_x/specs/Y.antt` is short for `crates/nt_x/specs/Y.antt`, and
  `Z.antt` after it stands in the same folder. A link leads to a file.
- In a table under a heading `specs/X.antt`, or of a crate whose page it is, a name in the first cell of a row is defined
  in that file.
- docs/MAP.md names each file of specs/, but for Lib.antt, which lists the others.
- A crate of crates.txt has a README.md, and the map has a row for it.
"""

import glob
import os
import re
import sys

ROOT = os.path.dirname(os.path.dirname(os.path.abspath(__file__)))
os.chdir(ROOT)
CRATES = [line.split(":")[0].split()[0] for line in open("crates.txt") if line.strip() and not line.startswith("#")]
found = []


def say(page, text):
    found.append("%s: %s" % (page, text))


def read(path):
    with open(path) as file:
        return file.read()


def defined(path):
    """The names that a file of specs/ defines or imports for others."""
    text = read(path)
    names = set(re.findall(r"^(?:unfoldable |abbrev |pub |infixl? \d+ )*(?:data |record )?(\S+)\s*:", text, re.M))
    names |= set(re.findall(r"^\s*(?:abbrev |unfoldable )*(?:pub )?(?:abbrev |unfoldable )*(?:data |record |syntax )?([^\s:(){}]+)(?:[^:\n]*):", text, re.M))
    for group in re.findall(r"\.\{([^}]*)\}", text):
        names |= {name.strip() for name in group.split(",")}
    return names


def spec_files():
    for crate in CRATES:
        for path in sorted(glob.glob("crates/%s/specs/*.antt" % crate)):
            if not path.endswith("/Lib.antt"):
                yield path


def check_paths(page, text):
    folder = os.path.dirname(page)
    for target in re.findall(r"\]\(([^)#]+)\)", text):
        if "://" not in target and not os.path.exists(os.path.join(folder, target)):
            say(page, "the link %s leads nowhere" % target)
    last = None
    for told in re.findall(r"`([^`\n]+)`", text):
        if re.fullmatch(r"[\w./-]+\.(antt|rt|py|sh|md|edit)", told):
            own = "crates/%s/" % os.path.basename(folder)
            places = [told, "crates/" + told, folder + "/" + told, own + told, own + "specs/" + told]
            if last:
                places.append(os.path.join(last, told))
            there = [place for place in places if os.path.exists(place)]
            if there:
                last = os.path.dirname(there[0])
            elif "/" in told or told.endswith(".antt"):
                say(page, "no file %s" % told)


def check_tables(page, text):
    """The names of a table under the heading of a file."""
    names = None
    for line in text.split("\n"):
        heading = re.match(r"#+ .*?((?:nt_\w+/)?specs/\w+\.antt)", line)
        if heading:
            path = heading.group(1)
            crate = re.search(r"crates/(nt_\w+)/specs", text)
            places = ["crates/" + path, "%s/%s" % (os.path.dirname(page), path)]
            if crate:
                places.append("crates/%s/%s" % (crate.group(1), path))
            there = [place for place in places if os.path.exists(place)]
            names = defined(there[0]) if there else None
            if not there:
                say(page, "no file %s" % path)
        elif line.startswith("#"):
            names = None
        elif names is not None and line.startswith("| `"):
            cells = re.sub(r"`[|]+`", "", line.replace("\\|", "")).split("|")
            for told in re.findall(r"`([^`]+)`", cells[1]):
                if told not in names:
                    say(page, "%s is not defined in the file above" % told)
            if len(cells) != 4 or not cells[2].strip():
                say(page, "a row that is not a name and its text: %s" % line)


def main():
    pages = ["README.md"] + sorted(glob.glob("docs/*.md")) + sorted(glob.glob("crates/*/README.md"))
    for page in pages:
        text = read(page)
        check_paths(page, text)
        check_tables(page, text)
    told = read("docs/MAP.md")
    last = None
    listed = set()
    for name in re.findall(r"`([\w/]+\.antt)`", told):
        if "/" in name:
            last = name.rsplit("/", 1)[0]
            listed.add(name)
        elif last:
            listed.add(last + "/" + name)
    for path in spec_files():
        if path.removeprefix("crates/") not in listed:
            say("docs/MAP.md", "%s is not named" % path.removeprefix("crates/"))
    for crate in CRATES:
        if not os.path.exists("crates/%s/README.md" % crate):
            say("crates.txt", "%s has no README.md" % crate)
        if "| `%s` |" % crate not in told:
            say("docs/MAP.md", "no row for %s" % crate)
    print("\n".join(found))
    print("%d pages, %d faults" % (len(pages), len(found)))
    sys.exit(bool(found))


main()
