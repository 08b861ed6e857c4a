#!/usr/bin/env python3
"""Brings this repository's own definitions and lemmas to today's spelling: words in snake case.

usage: tools/respell.py        at the top of the repository, once, on what the port.py of the kit has made

port.py turns the names that the kit's tables know. This turns the rest: a definition in lower camel case ('drainFrom') and a lemma,
a field or a constructor with dashes ('time-left-no-second') become snake case ('drain_from', 'time_left_no_second'). The names are
read off the declarations in specs/ and proofs/, so the table is made anew by each run; --table prints it and changes nothing.

What keeps its spelling: functions of src/ and what src/ declares, types, modules, strings, and the names that Rattle makes for a
proof ('invariant-loop', a label behind a dot). Where what it takes for a lemma would fall together with a definition it gets '_lem';
five fields of facts that would do so get '_range'. A few fields and lemmas of sections that it takes for neither were given their
'_lem' by hand; docs/PORT.md names them. In the pages only what stands between backticks turns.
"""

import glob
import os
import re
import sys

WORD = re.compile(r"[^\s(){}.;,@\"«»`]+")
DECLARED = re.compile(r"^ *((?:abbrev |unfoldable |pub )*)(data |record )?([^\s:(){}=λ,]+)\s+(.*)$")
MEMBER = re.compile(r"^\s+(?:pub )?([^\s:()=]+) : ")
IMPORT = re.compile(r"^\s*(?:pub )?use (\S+?)\.\{([^}]*)\}", re.M)

# The fields of facts that would have the name of a definition which stands in the same file.
FIELDS = {
    "slots-in": "slots_in_range",
    "slot-in": "slot_in_range",
    "entries-in": "entries_in_range",
    "header-in": "header_in_range",
    "next-in": "next_in_range",
}

# Lemmas that port.py had turned to the name which a definition now gets, by crate.
FALLEN = {
    "promises": {"one_more": "one_more_lem", "all_asked": "all_asked_lem", "once_closed": "once_closed_lem"},
    "heap": {"full_at": "full_at_lem"},
}

# Functions that a proof walks through, and that lemmas are named after.
CALLS = r"\.(lowest-free|no-handle|time-left|least-left)(?![\w-])"

# Definitions whose snake case port.py had already written: the lemma beside them still has its dash.
TURNED = ("in_word", "same_numbers", "read_by", "number_of")


def antt_files():
    for kind in ("specs", "proofs"):
        yield from sorted(glob.glob(f"crates/*/{kind}/**/*.antt", recursive=True))


def declared():
    """Each name that specs/ and proofs/ declare, but for answers to goals, which have the names that Rattle gives them."""
    found = {}
    for path in antt_files():
        inside = False
        for line in open(path, encoding="utf-8"):
            if line.startswith(("--", "use ", "pub use ", "mod ", "pub mod ")):
                continue
            m = DECLARED.match(line)
            if m and not (line.startswith(" ") and inside):
                inside = bool(m[2])
                if m[2] or (m[4].startswith(": ") and not re.match(r":.*\b(tie|goal)\.", m[4])):
                    found.setdefault(m[3], "definition" if "abbrev" in m[1] or "unfoldable" in m[1] else "lemma")
                continue
            if line.strip() and not line.startswith(" "):
                inside = False
            m = MEMBER.match(line)
            if m and inside:
                found.setdefault(m[1], "member")
    return found


def snake(name):
    if re.match(r"◌?[a-z]", name):
        name = re.sub(r"(?<=[a-z0-9])([A-Z])", lambda m: "_" + m[1].lower(), name)
    return name.replace("-", "_")


def table():
    found = declared()
    rows = {}
    for name, kind in found.items():
        if name.startswith(("+", "μ")):
            continue
        rows[name] = FIELDS.get(name) or snake(name)
    taken = {rows[name] for name, kind in found.items() if kind == "definition" and name in rows} | set(TURNED)
    for name, new in rows.items():
        if "-" in name and new in taken and found[name] == "lemma":
            rows[name] = new + "_lem"
    for name in [n for n in rows if "◌" in n]:
        for part in re.findall(r"[^◌]+", name):
            rows[part] = snake(part)
    return {old: new for old, new in rows.items() if old != new}


def foreign(text):
    """The names that a file takes from a library of the kit."""
    own = {os.path.basename(p) for p in glob.glob("crates/*")}
    for m in IMPORT.finditer(text):
        head = m[1].split(".")
        if not (head[0] == "Rattle" and len(head) > 1 and head[1] in own):
            yield from (item.split()[0] for item in m[2].split(",") if item.strip())


def turned(text, rows):
    skipped = set(foreign(text))
    return WORD.sub(lambda m: m[0] if m[0] in skipped else rows.get(m[0], m[0]), text)


def turned_walk(text, rows):
    """A Proof.antt: behind a dot, a call's label is the called function's name."""
    text = re.sub(CALLS, lambda m: "." + m[1].replace("-", "_"), text)
    return turned(text, rows)


def turned_rt(text, rows):
    """A file of src/, but for its strings."""
    parts = re.split(r"(\"(?:\\.|[^\"\\\n])*\")", text)
    return "".join(p if i % 2 else turned(p, rows) for i, p in enumerate(parts))


def turned_page(text, rows):
    return re.sub(r"`[^`\n]+`", lambda m: turned(m[0], rows), text)


def rows_of(path, rows):
    parts = path.split("/")
    more = FALLEN.get(parts[1], {}) if parts[0] == "crates" and path.endswith(".antt") else {}
    return {**rows, **more}


def main():
    rows = table()
    if sys.argv[1:] == ["--table"]:
        for old, new in sorted(rows.items()):
            print(f"{old}\t{new}")
        return
    pages = ["README.md"] + sorted(glob.glob("docs/**/*.md", recursive=True))
    work = [(p, turned_walk if p.endswith("/Proof.antt") else turned) for p in antt_files()]
    work += [(p, turned_rt) for p in sorted(glob.glob("crates/*/src/**/*.rt", recursive=True))]
    work += [(p, turned) for p in sorted(glob.glob("crates/*/must-fail/*.edit"))]
    work += [(p, turned_page) for p in pages]
    changed = 0
    for path, turn in work:
        with open(path, encoding="utf-8") as f:
            old = f.read()
        new = turn(old, rows_of(path, rows))
        if new != old:
            changed += 1
            with open(path, "w", encoding="utf-8") as f:
                f.write(new)
    print(f"respell: {len(rows)} names, {changed} files")


if __name__ == "__main__":
    os.chdir(os.path.join(os.path.dirname(os.path.abspath(__file__)), ".."))
    main()
