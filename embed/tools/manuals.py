"""Manual pages, made of what is written elsewhere, so that nothing is said twice.

manuals.py header HEADER VERSION            kefs(3): the comments and declarations of a C header, in their order
manuals.py program NAME VERSION PAGE...     NAME(1): the section of that name of the first page that has one, and the part of that page on all
                                            programs. Where the section has no headings, it gets those of a manual page
manuals.py usage NAME VERSION PURPOSE       NAME(1): what the program says of its use, from standard input"""

import re
import sys
import textwrap


def escaped(text):
    """Text for roff: no backslash, dot or quote of it is a command."""
    text = text.replace("\\", "\\e").replace("-", "\\-")
    return re.sub(r"^([.'])", r"\\&\1", text, flags=re.MULTILINE)


def verbatim(lines):
    return [".PP", ".nf", ".RS 4", *(escaped(line) for line in lines), ".RE", ".fi"]


def title(name, section, version):
    return [f".TH {name.upper()} {section} \"\" \"Kefsdalv {version}\""]


# kefs(3)


def without_guards(text):
    """The header from its first comment on, without what only a compiler needs."""
    text = re.sub(r"#ifdef __cplusplus\n.*?#endif\n", "", text, flags=re.DOTALL)
    return re.sub(r"^#(ifndef KEFS_H|define KEFS_H|include .*|endif)\n", "", text, flags=re.MULTILINE)


def comment_text(comment):
    """The paragraphs of a comment."""
    lines = [line.strip() for line in comment.strip()[2:-2].split("\n")]
    return [part for part in re.split(r"\n\s*\n", "\n".join(lines).strip()) if part]


def header_parts(text):
    """Pairs of a comment, or None, and the code that follows it up to an empty line."""
    for comment, code in re.findall(r"(/\*(?s:.*?)\*/)?((?:\n?^(?!/\*).+)*)", text, flags=re.MULTILINE):
        if comment or code:
            yield comment or None, code.strip("\n")


def comment_line(line):
    """A line of a comment: an entry of a list, or a result that a call returns, begins anew."""
    text = re.sub(r"`([^`]*)`", lambda code: "\\fI" + code.group(1) + "\\fP", escaped(line))
    if line.startswith("- "):
        return [".IP \\(bu 2", text[3:]]
    return [".br", text] if re.match(r"[A-Z][A-Z_]{4,}(, [A-Z_]{5,})*[:.]", line) else [text]


def described(comment, code):
    text = comment_text(comment) if comment else []
    if not code and len(text) == 1 and "\n" not in text[0] and not text[0].endswith("."):
        return [f".SH {text[0].upper()}"]
    lines = verbatim(code.split("\n")) if code else []
    for paragraph in text:
        lines += [".PP", *(part for line in paragraph.split("\n") for part in comment_line(line))]
    return lines


def header_page(path, version):
    with open(path, encoding="utf-8") as file:
        parts = list(header_parts(without_guards(file.read())))
    calls = [line for _, code in parts for line in code.split("\n") if re.match(r"(int|const char \*)\s?\*?kefs_\w+\(", line)]
    page = title("kefs", 3, version) + [".SH NAME", "kefs \\- failure\\-atomic msync on a program's own memory", ".SH SYNOPSIS"]
    page += verbatim(["#include <kefs.h>", *calls]) + [".PP", "Link with \\fB\\-lkefs\\fP.", ".SH DESCRIPTION"]
    for comment, code in parts:
        page += described(comment, code)
    return page + [".SH SEE ALSO", ".BR msync (2),", ".BR pagefmt (1),", ".BR pagecat (1),", ".BR pagesync (1)"]


# NAME(1)


def inline(text):
    """Words of Markdown in roff: code is bold, a link is its text, and other marks go."""
    text = re.sub(r"\[([^]]*)\]\([^)]*\)", r"\1", text)
    pieces = re.split(r"`([^`]*)`", text)
    return "".join(f"\\fB{escaped(piece)}\\fP" if i % 2 else escaped(re.sub(r"(\*+)(\w[^*]*)\1", r"\2", piece)) for i, piece in enumerate(pieces))


def table(lines):
    """Each row of a table is a term, its first cell, and what is said of it."""
    page = []
    for line in lines[2:]:
        cells = [cell.strip() for cell in line.strip().strip("|").split(" | ")]
        page += [".TP", inline(cells[0].strip("| ")), "; ".join(inline(cell) for cell in cells[1:])]
    return page


def block(lines):
    """A paragraph, a table, a piece of code or a heading."""
    if lines[0].startswith("## "):
        return [f".SH {inline(lines[0][3:]).upper()}"]
    if lines[0].startswith("|"):
        return table(lines)
    if lines[0].startswith("    "):
        return verbatim(textwrap.dedent("\n".join(lines)).split("\n"))
    return [".PP", *(inline(line) for line in lines)]


def blocks(text):
    return [part.split("\n") for part in re.split(r"\n{2,}", text.strip("\n")) if part]


def section(text, name):
    """What stands below a heading of this name of the highest level, up to the next such heading, or None."""
    found = re.search(rf"^# {name}(?: [^\n]*)?\n(.*?)(?=^# |\Z)", text, flags=re.DOTALL | re.MULTILINE)
    return found and found.group(1)


def headed(name, text, parts):
    """The blocks of a section with headings: its first one is the synopsis, and what it is for stands at the head of the page."""
    if parts[0][0].startswith("## "):
        return parts
    purpose = " ".join(re.search(rf"`{name}` ([^,.]*)", text)[1].split())
    return [["## NAME"], [f"{name} - {purpose}"], ["## SYNOPSIS"], parts[0], ["## DESCRIPTION"], *parts[1:]]


def program_page(name, version, paths):
    for path in paths:
        with open(path, encoding="utf-8") as file:
            text = file.read()
        found = section(text, name)
        if found:
            parts = headed(name, text, blocks(found)) + blocks(section(text, "What is the same for all") or "")
            return title(name, 1, version) + [line for lines in parts for line in block(lines)]
    sys.exit(f"manuals.py: no page has a section {name}")


# NAME(1) of what a program says


def usage_block(lines):
    """A paragraph, or options: one begins at its dash, and two spaces or more stand before what it does."""
    if not lines[0].lstrip().startswith("-"):
        return [".PP", *map(escaped, lines)]
    page = []
    for line in lines:
        option = re.match(r"\s*(-\S.*?)\s{2,}(.*)", line)
        page += [".TP", f"\\fB{escaped(option[1])}\\fP", escaped(option[2])] if option else [escaped(line.strip())]
    return page


def usage_page(name, version, purpose, text):
    synopsis, *rest = blocks(text)
    page = title(name, 1, version) + [".SH NAME", escaped(f"{name} - {purpose}"), ".SH SYNOPSIS"]
    page += [escaped(line.removeprefix("usage: ")) for line in synopsis] + [".SH DESCRIPTION"]
    return page + [line for lines in rest for line in usage_block(lines)] + [".SH SEE ALSO", ".BR kefs (3),", ".BR pagecat (1)"]


def main(words):
    if words[0] == "header":
        page = header_page(*words[1:])
    elif words[0] == "usage":
        page = usage_page(*words[1:], sys.stdin.read())
    else:
        page = program_page(words[1], words[2], words[3:])
    print("\n".join(page))


main(sys.argv[1:])
