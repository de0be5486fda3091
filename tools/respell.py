#!/usr/bin/env python3
"""Brings the names of our definitions, lemmas, fields and constructors to one spelling: words in snake case, types in camel case.

Run once at the top of the repository. It collects what specs/ and proofs/ declare, and renames whole words in .antt files, in .rt files outside strings,
and in must-fail edits and pages. Names that the check makes (goals, steps) and names of the library are no declarations of ours and stay.
"""
import collections
import glob
import re
import sys

IDENT = r"[A-Za-z_][A-Za-z0-9_'\-]*"
# a name that would fall together with another one, or that hides or is hidden by another, gets this one instead
CHOSEN = {
    "head-of": "head_below",
    "span-count": "span_count_is",
    "tie-count": "tie_count_is",
    "is-finish": "is_finish_of",
    "finish-of": "finish_found",
    "step-at": "step_here",
    "span-at": "span_edge_at",
    "tie-at": "tie_edge_at",
}
# the same in one file alone
CHOSEN_IN = {
    "crates/rules/proofs/Controller.antt": {"is-none": "none_is_none"},
}


def antt_files():
    return sorted(glob.glob("crates/*/specs/**/*.antt", recursive=True) + glob.glob("crates/*/proofs/**/*.antt", recursive=True))


def strip_comment(line):
    return re.split(r"(?:^|\s)--(?=\s|$)", line, maxsplit=1)[0]


def signature(lines, i):
    """The text of the declaration that begins at line i, to the next line that is not deeper."""
    text = strip_comment(lines[i])
    indent = len(lines[i]) - len(lines[i].lstrip())
    for line in lines[i + 1:]:
        if not line.strip() or len(line) - len(line.lstrip()) <= indent:
            break
        text += " " + strip_comment(line).strip()
    return text


def declared():
    """name -> set of kinds: 'type', 'word', 'local' (in a folder of answers)"""
    found = collections.defaultdict(set)
    for path in antt_files():
        lines = open(path, encoding="utf-8").read().split("\n")
        deep = len(path.split("/")) > 4
        for i, line in enumerate(lines):
            bare = strip_comment(line)
            m = re.match(r"^\s*((?:(?:abbrev|unfoldable|pub|axiom|private|record|data)\s+)*)(" + IDENT + r"(?:\s+" + IDENT + r")*)\s*((?:[({].*)?):(?=\s|$)", bare)
            if not m or m.group(2).split()[0] in ("use", "elim", "let", "in", "where", "module"):
                continue
            text = signature(lines, i)
            if re.search(r":\s*(goal|given)\.", text) or re.match(r"(invariant|measure|ghost)-", m.group(2)):
                continue
            is_type = bool(re.search(r"\b(record|data)\b", m.group(1))) or bool(re.search(r"Type\s*(0|1|ℓ)?\s*(where)?\s*$", text.strip()))
            for name in m.group(2).split():
                found[name].add("type" if is_type else "local" if deep else "word")
    return found


def snake(name):
    name = re.sub(r"(?<=[a-z0-9])(?=[A-Z])", "_", name)
    return name.replace("-", "_").lower()


def camel(name):
    return "".join(part[:1].upper() + part[1:] for part in re.split(r"[-_]", name))


def respelled(name, kinds):
    if name in CHOSEN:
        return CHOSEN[name]
    if "type" in kinds:
        return camel(name) if name[:1].isupper() else snake(name)
    if "-" in name or re.search(r"[a-z0-9][A-Z]", name):
        return snake(name)
    return name


def mapping():
    return {n: respelled(n, k) for n, k in declared().items() if respelled(n, k) != n}


def local_names():
    """Names that only answers declare: behind a dot they are the check's own."""
    return {n for n, k in declared().items() if k == {"local"}}


TOKEN = re.compile(r"(?<![A-Za-z0-9_'\-·])" + IDENT)


def rename(text, names):
    def one(m):
        name = m.group(0)
        if name not in names:
            return name
        if m.start() and text[m.start() - 1] == ".":
            # a field, or a step that the check names after a function of the same name
            return name if name in LOCAL else snake(name) if name in CHOSEN else names[name]
        return names[name]

    return TOKEN.sub(one, text)


def rename_rt(text, names):
    """As rename, but strings and bytes stay."""
    parts = re.split(r'(b?"(?:[^"\\]|\\.)*")', text)
    return "".join(p if i % 2 else rename(p, names) for i, p in enumerate(parts))


LOCAL = set()


def main():
    names = mapping()
    LOCAL.update(local_names())
    for path in antt_files():
        write(path, rename, dict(names, **CHOSEN_IN.get(path, {})))
    for path in sorted(glob.glob("crates/*/src/**/*.rt", recursive=True)):
        write(path, rename_rt, names)
    # edits and pages may have a name in the spelling before the kit's own script
    final = {names.get(n, n) for n in declared()}
    for path in sorted(glob.glob("crates/*/must-fail/*.edit")):
        write(path, rename_older, names, final)
    for path in sorted(glob.glob("docs/*.md") + ["README.md"]):
        write(path, rename_page, names, final)
    print(len(names), "names")


def rename_older(text, names, final):
    def one(m):
        name = m.group(0)
        return snake(name) if name[0].islower() and snake(name) != name and snake(name) in final else name

    return TOKEN.sub(one, rename(text, names))


def rename_page(text, names, final):
    """Only what stands between backquotes."""
    parts = re.split(r"(```.*?```|`[^`\n]*`)", text, flags=re.S)
    return "".join(rename_older(p, names, final) if i % 2 else p for i, p in enumerate(parts))


def write(path, how, *names):
    old = open(path, encoding="utf-8").read()
    new = how(old, *names)
    if new != old:
        open(path, "w", encoding="utf-8").write(new)


if __name__ == "__main__":
    main()
