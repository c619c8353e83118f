#!/usr/bin/env python3
"""Spells the definitions and lemmas of the crates in snake case; run once, straight after the kit's port.py.

A name that the crates define in an .antt file, that begins with a small letter and has a capital or a dash in it,
becomes words joined by `_`. Types, records and modules keep their capitals, and so do the names of goals, which the
kit makes. Where a lemma would then have the name of a definition, or of another lemma in the same place, it is named
in APART. The pages outside docs/landings/ get the same names where they stand between backquotes; what the must-fail
edits say is brought over by hand.
"""
import glob
import re

# Names that would fall together: what each is called instead. A lemma that would have its function's name ends in _lem.
APART = {
    "busy-load": "busy_load_lem",
    "by-tag": "by_tag_lem",
    "chain_runs": "chain_runs_lem",
    "field-length": "field_length_lem",
    "figure-of": "figure_of_lem",
    "figure-reply": "figure_reply_lem",
    "figure-words": "figure_words_lem",
    "first-hang": "first_hang_lem",
    "first-start": "first_start_lem",
    "gate-F": "gate_f_lem",
    "head-key": "head_key_lem",
    "in-range": "in_range_lem",
    "last-end": "last_end_in",
    "last-total": "last_total_lem",
    "lower-wire": "lower_wire_lem",
    "most-in": "most_in_lem",
    "octets-at": "octets_at_lem",
    "octets-of": "octets_of_lem",
    "plan-length": "plan_length_lem",
    "port-in": "port_in_lem",
    "refused-line": "refused_line_lem",
    "room_after": "room_after_lem",
    "runs-below": "runs_below_lem",
    "runs-reply": "runs_reply_lem",
    "small-runs": "small_runs_lem",
    "small-stairs": "small_stairs_lem",
    "stairs-reply": "stairs_reply_lem",
    "streams-in": "streams_in_lem",
    "tag-of": "tag_of_lem",
    "value-length": "value_length_lem",
    "wait-load": "wait_load_lem",
}

# Names that the library has too, under which other files bring in the library's.
KEPT = {"and-false", "and-true"}

MARKS = r"(?:(?:unfoldable|abbrev|pub|private|instance|data|record|ruleset|module|syntax|macro)\s+)*"
DEFINED = re.compile(r"\s*" + MARKS + r"([^\s:(){},;.]+)\s*(?:\{[^}]*\}\s*|\([^)]*\)\s*)*:\s+(.*)")
TOKEN = re.compile(r"[^\s(){},;.`\"]+")


def snake(name):
    name = name.replace("-", "_")
    name = re.sub(r"([a-z0-9₀-₉])([A-Z])", lambda m: m.group(1) + "_" + m.group(2).lower(), name)
    name = re.sub(r"_([A-Z])", lambda m: "_" + m.group(1).lower(), name)
    return re.sub(r"_+", "_", name)


def names_of(files):
    """What each name becomes, of the names defined in these files."""
    kinds = {}
    for path in files:
        for line in open(path, encoding="utf-8"):
            found = DEFINED.match(line)
            if found and re.match(r"[a-z]", found.group(1)):
                kinds.setdefault(found.group(1), set()).add(found.group(2).startswith(("tie.", "goal.")))
    renamed = {}
    for name, goals in kinds.items():
        to = APART.get(name, snake(name))
        if goals != {True} and to != name and name not in KEPT:
            renamed[name] = to
    taken = {}
    for name in kinds:
        if kinds[name] != {True}:
            taken.setdefault(renamed.get(name, name), []).append(name)
    for to, names in taken.items():
        if len(names) > 1:
            raise SystemExit(f"{to}: {' and '.join(names)} fall together")
    return renamed


def turned(text, renamed):
    return TOKEN.sub(lambda m: renamed.get(m.group(0), m.group(0)), text)


def turn_code(text, renamed, comment):
    """All but what stands behind a comment's mark."""
    lines = []
    for line in text.split("\n"):
        code, mark, said = line.partition(comment)
        lines.append(turned(code, renamed) + mark + said)
    return "\n".join(lines)


def turn_page(text, renamed):
    return re.sub(r"`[^`\n]+`", lambda m: turned(m.group(0), renamed), text)


def main():
    antt = sorted(glob.glob("crates/**/*.antt", recursive=True))
    renamed = names_of(antt)
    work = [(path, lambda text: turn_code(text, renamed, "--")) for path in antt]
    work += [(path, lambda text: turn_code(text, renamed, "//"))
             for path in sorted(glob.glob("crates/**/*.rt", recursive=True))]
    work += [(path, lambda text: turn_page(text, renamed))
             for path in ["README.md", "rust/README.md"] + sorted(glob.glob("docs/*.md"))]
    for path, turn in work:
        old = open(path, encoding="utf-8").read()
        new = turn(old)
        if new != old:
            with open(path, "w", encoding="utf-8") as file:
                file.write(new)
    print(f"{len(renamed)} names")


if __name__ == "__main__":
    main()
