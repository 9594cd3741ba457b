#!/usr/bin/env python3
"""manual.py FOLDER   writes the manual pages into a folder, from manual/*.in and the pages that these name

A template is a manual page, in the macros of man(7), with lines that take in what a page of the repository says, so that it is said once:

    @page PAGE                    the whole page, its headings as headings of the manual
    @section PAGE: HEADING        what stands under that heading
    @table PAGE: FIRST CELL       the table whose first cell is that, as a list
    @version                      the number in VERSION

A page, a heading or a table that is not there ends it with status 1.
"""
import os
import re
import subprocess
import sys
import textwrap

TOP = os.path.dirname(os.path.dirname(os.path.realpath(__file__)))
FENCE = "```"


class Missing(Exception):
    """A page, a heading or a table that a template names is not there."""


def page_of(name):
    try:
        with open(f"{TOP}/{name}", encoding="utf-8") as it:
            return it.read().splitlines()
    except OSError as fault:
        raise Missing(f"{name} is not there") from fault


def plain(text):
    """A text of a manual page in which each character stands for itself."""
    text = text.replace("\\", "\\e").replace("-", "\\-").replace("≤", "\\(<=").replace("×", "x").replace("…", "...")
    return guarded(text)


def inline(text):
    """A text of a page: code and emphasis in fonts of the manual, a link as its words."""
    text = re.sub(r"\[((?:[^\]`]|`[^`]*`)*)\]\([^)]*\)", r"\1", text)
    made = []
    for number, piece in enumerate(re.split(r"`([^`]*)`", text)):
        if number % 2:
            made.append(rf"\fB{plain(piece)}\fR" if piece else "")
        else:
            piece = plain(piece)
            piece = re.sub(r"\*\*([^*]+)\*\*", r"\\fB\1\\fR", piece)
            made.append(re.sub(r"\*([^*\s][^*]*)\*", r"\\fI\1\\fR", piece))
    return guarded("".join(made).strip())


def guarded(line):
    """A line of text, which is no macro though it begins like one."""
    return re.sub(r"^(?=[.'])", r"\\&", line)


def laid_out(text):
    """A text in lines of the width that manual pages have."""
    return [guarded(it) for it in textwrap.wrap(text, 79, break_long_words=False, break_on_hyphens=False)]


def cells(row):
    """The cells of a row of a table; a bar in code or behind a backslash is a character."""
    held = re.sub(r"`[^`]*`", lambda it: it[0].replace("|", "\0"), row.strip().strip("|")).replace("\\|", "\0")
    return [it.strip().replace("\0", "|") for it in held.split("|")]


def list_of(rows):
    """A table as a list: the first cell of a row as its tag; of three and more columns each later cell has its head before it."""
    head, made = cells(rows[0]), []
    for row in rows[2:]:
        tag, *rest = cells(row)
        named = [it if len(head) == 2 or name == "" else f"{name}: {it}" for name, it in zip(head[1:], rest) if it]
        first, *others = named or [""]
        if len(head) > 2 and rest and first.startswith(f"{head[1]}: "):
            first = rest[0]
        made += [".TP", inline(tag) or "\\&", *laid_out(inline(first))]
        for it in others:
            made += [".br", *laid_out(inline(it))]
        if not first:
            made.append("\\&")
    return made


def converted(lines, heading):
    """A page's lines as those of the manual. heading: what a line of a heading, with its depth, becomes."""
    made, at = [], 0

    def until(ends):
        nonlocal at
        found = []
        while at < len(lines) and not ends(lines[at]):
            found.append(lines[at])
            at += 1
        return found

    begins = re.compile(r"\s*$|#|```|\||\s*- |\s*\d+\. |> ")
    while at < len(lines):
        line = lines[at]
        if not line.strip():
            at += 1
        elif line.startswith(FENCE):
            at += 1
            made += [".PP", ".RS 4", ".nf", *[plain(it) or "\\&" for it in until(lambda it: it.startswith(FENCE))], ".fi", ".RE"]
            at += 1
        elif line.startswith("#"):
            at += 1
            made += heading(len(line) - len(line.lstrip("#")), line.lstrip("#").strip())
        elif line.startswith("|"):
            made += list_of(until(lambda it: not it.startswith("|")))
        else:
            tag = re.match(r"\s*(-|\d+\.) ", line)
            lines[at] = line[len(tag[0]) :] if tag else line.removeprefix("> ")
            first, at = lines[at], at + 1
            text = " ".join([first, *[it.strip().removeprefix("> ") for it in until(begins.match)]])
            made += [f'.IP "{tag[1]}" 4' if tag and tag[1] != "-" else ".IP \\(bu 4"] if tag else [".PP"]
            made += laid_out(inline(text))
    return made


def section(name, wanted):
    """The lines under a heading, up to the next of its depth or above."""
    lines, depth, found, is_code = page_of(name), 0, [], False
    for line in lines:
        is_code ^= line.startswith(FENCE)
        here = 0 if is_code else len(line) - len(line.lstrip("#"))
        if depth and here and here <= depth:
            break
        if depth:
            found.append(line)
        elif here and line.lstrip("#").strip() == wanted:
            depth = here
    if not depth:
        raise Missing(f"{name} has no heading '{wanted}'")
    return found


def table(name, wanted):
    """The rows of the first table whose first cell is that."""
    found = []
    for line in page_of(name):
        if line.startswith("|") and (found or cells(line)[0] == wanted):
            found.append(line)
        elif found:
            break
    if not found:
        raise Missing(f"{name} has no table whose first cell is '{wanted}'")
    return found


def below(_depth, text):
    return [f".SS {plain(text)}"]


def whole(depth, text):
    return [] if depth == 1 else [f".SH {plain(text).upper()}"] if depth == 2 else [f".SS {plain(text)}"]


def taken(line):
    """What a line of a template stands for."""
    order, _, rest = line.partition(" ")
    name, _, wanted = rest.partition(": ")
    if order == "@page":
        return converted(page_of(name), whole)
    if order == "@section":
        return converted(section(name, wanted), below)
    if order == "@table":
        return list_of(table(name, wanted))
    return [line] if line.startswith(".") else laid_out(line)


def text_of(template, date):
    with open(template, encoding="utf-8") as it:
        lines = it.read().splitlines()
    version = page_of("VERSION")[0]
    made = [line.replace("@version", version).replace("@date", date) for line in lines]
    text = "\n".join(it for line in made for it in taken(line)) + "\n"
    # (a heading begins a paragraph of its own)
    return re.sub(r"^(\.S[HS] .*\n)\.PP\n", r"\1", text, flags=re.M)


def main(folder):
    last = ["git", "-C", TOP, "log", "-1", "--format=%cs"]
    found = subprocess.run(last, capture_output=True, text=True, check=False).stdout.strip()
    for template in sorted(os.listdir(f"{TOP}/manual")):
        if template.endswith(".in"):
            with open(f"{folder}/{template.removesuffix('.in')}", "w", encoding="utf-8") as it:
                it.write(text_of(f"{TOP}/manual/{template}", found or "2026-12-01"))
    return 0


if __name__ == "__main__":
    try:
        sys.exit(main(*sys.argv[1:]))
    except Missing as fault:
        sys.exit(f"manual.py: {fault}")
