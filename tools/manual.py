"""Writes the manual pages of section 3 from the comments of include/hcube.h, which stay the one source.

    python3 tools/manual.py HEADER FOLDER

FOLDER gets a page for each function, made from its comment, and hcube.3 with the header's first comment, a list of
the functions and the macros. The words are taken as they stand. What becomes of their layout:

    an empty line                            a new paragraph
    a line that begins as in SECTIONS        a new paragraph, which opens the section
    - text                                   a point
    indented, with a number and two blanks   a list: the number, then the text
    indented, with words and a colon         the same: the words, then the text
    indented otherwise                       left as it stands; where it is C, the text before it opens EXAMPLES
    `name`, HCUBE_NAME, hcube_name           italic, bold, bold

Whatever of the header is not known here ends the run. The pages' date is that of the header file, or SOURCE_DATE_EPOCH
where it is set.
"""
import os
import re
import sys
import textwrap
import time

# What a header is made of. A #define may have a comment behind it, over more than one line.
ITEM = re.compile(r"""
    (?P<comment> ^/\*.*?\*/ )
  | ^\#define[ ](?P<macro>\w+(?:\([^)]*\))?)(?P<body>(?:\\\n|/\*.*?\*/|[^\n])*)
  | ^(?P<prototype> \w[\w\s*]*?\b(?P<function>hcube_\w+)\([^)]*\) )(?: ; | \s*\{\n.*?^\} )
  | (?P<passed> ^\#(?!\s*define)(?:\\\n|[^\n])* | ^(?:extern[ ]"C"[ ]\{|\})$ | \s+ )
""", re.X | re.M | re.S)

SECTIONS = (("Refusals", "REFUSALS"), ("Accepted:", "RETURN VALUE"))
LIST_ITEM = re.compile(r"( +)(\d+(?=  )|[a-z][a-z ]*:) +(\S.*)")
PROTOTYPE_MAX = 73  # columns, beside the margin of a page of 80


class Header:
    """A header taken apart: its licence's line, its first comment, its macros in groups, its functions."""

    def __init__(self, text):
        self.licence, self.first, self.groups, self.functions = "", None, [], []
        end = 0
        for item in ITEM.finditer(text):
            if item.start() != end:
                break
            end = item.end()
            self.take(item)
        if end != len(text):
            fail("not known: " + text[end:].split("\n")[0])
        if not self.licence or not self.first:
            fail("the header's first lines are not its licence and its first comment")
        for comment, macros in self.groups:
            if not macros:
                fail("a comment of nothing: " + comment[0])

    def take(self, item):
        if item["comment"]:
            lines = comment_lines(item["comment"])
            if lines[0].startswith("SPDX-"):
                self.licence = lines[0]
            elif self.first is None:
                self.first = lines
            else:
                self.groups.append((lines, {}))
        elif item["function"]:
            comment, macros = self.groups.pop() if self.groups else (None, None)
            if comment is None or macros:
                fail(item["function"] + " has no comment of its own")
            self.functions.append((item["function"], item["prototype"].replace("HCUBE_INLINE", "static inline"), comment))
        elif item["macro"] and item["body"].strip():
            if not self.groups:
                fail(item["macro"] + " has no comment before it")
            self.groups[-1][1].setdefault(item["macro"], []).append(item["body"])

    def version(self):
        """As 1.0.0."""
        numbers = {name: bodies[0].strip() for _, macros in self.groups for name, bodies in macros.items()}
        parts = [numbers.get("HCUBE_VERSION_" + part, "") for part in ("MAJOR", "MINOR", "PATCH")]
        if not all(part.isdigit() for part in parts):
            fail("the header has no version")
        return ".".join(parts)


def fail(text):
    print("manual.py: " + text, file=sys.stderr)
    sys.exit(2)


def comment_lines(comment):
    """The lines of a comment without its stars. What is left before their words is layout."""
    text = "\n".join(re.sub(r"^\s*\* ?", "", line).rstrip() for line in comment[2:-2].split("\n")).strip()
    return text.split("\n") if text else fail("an empty comment")


def escaped(text):
    """Text as roff takes it."""
    return text.replace("\\", r"\e").replace("^", r"\(ha").replace("~", r"\(ti")


def as_it_stands(text):
    """The same where every sign is meant as it is."""
    text = escaped(text).replace("-", r"\-").replace("'", r"\(aq").replace("`", r"\(ga")
    return r"\&" + text if text.startswith(".") else text


def wrapped(text):
    return textwrap.wrap(text, 78, break_long_words=False, break_on_hyphens=False)


def filled(lines):
    """Text that roff fills: names are marked, and each sentence begins a line."""
    text = escaped(" ".join(line.strip() for line in lines))
    text = re.sub(r"(?<![A-Za-z])-|-(?![A-Za-z])", r"\\-", text)  # a minus; in a word it is a hyphen
    text = re.sub(r"`([^`]*)`", r"\\fI\1\\fR", text)
    text = re.sub(r"\b(HCUBE_[A-Z_]+|hcube_[a-z_]+)\b", r"\\fB\1\\fR", text)
    lines = [line for sentence in text.replace(". ", ".\n").split("\n") for line in wrapped(sentence)]
    return [r"\&" + line if line[0] in ".'" else line for line in lines]


def section(line):
    """The section that a line opens, or none."""
    return next((name for begin, name in SECTIONS if line.startswith(begin)), "")


def blocks(lines):
    """The parts of a comment by their layout: text, point, list or code, each with its lines."""
    found = []
    for i, line in enumerate(lines):
        kind = found[-1][0] if found and i and lines[i - 1] else ""  # what goes on here, unless an empty line ended it
        if not line:
            continue
        if line.startswith("- "):
            found.append(("point", [line[2:]]))
        elif line.startswith("  "):
            if kind not in ("point", "list", "code"):
                found.append(("list" if LIST_ITEM.match(line) else "code", []))
            found[-1][1].append(line)
        elif kind == "text" and not section(line):
            found[-1][1].append(line)
        else:
            found.append(("text", [line]))
    return found


def listed(lines):
    """A list of numbers or words with their text."""
    items = []
    for line in lines:
        item = LIST_ITEM.match(line)
        if item and item[1] == LIST_ITEM.match(lines[0])[1]:
            items.append((item[2], [item[3]]))
        else:
            items[-1][1].append(line)
    return tagged(items)


def tagged(items, behind=""):
    """A list of tags, each with the same behind it, and their text, close together."""
    width = min(32, 2 + max(len(tag + behind) for tag, _ in items))
    out = [".PD 0"]
    for tag, lines in items:
        out += [f".TP {width}", rf"\fB{tag}\fR{behind}", *filled(lines)]
    return out + [".PD"]


def body(comment, opens=section):
    """A comment as a page has it, with the sections that its lines open."""
    out, parts = [], blocks(comment)
    for i, (kind, lines) in enumerate(parts):
        if kind == "text":
            title = opens(lines[0])
            if not title and i + 1 < len(parts) and parts[i + 1][0] == "code" and parts[i + 1][1][-1].endswith(";"):
                title = "EXAMPLES"
            out += [f".SH {title}" if title else ".PP", *filled(lines)]
        elif kind == "point":
            out += [r".IP \(bu 2", *filled(lines)]
        elif kind == "list":
            out += listed(lines)
        else:
            out += [".PP", ".in +4n", ".EX", *(as_it_stands(line[2:]) for line in lines), ".EE", ".in"]
    return out[1:] if out[0] == ".PP" else out


def macro_list(macros):
    """The macros of one comment: what each stands for, and the comment behind it."""
    def meaning(text):
        value, _, comment = text.partition("/*")
        behind = ": " + " ".join(comment_lines("/*" + comment)) if comment else ""
        return " ".join(value.replace("\\\n", " ").split()) + behind
    return tagged([(macro, [", or ".join(map(meaning, texts))]) for macro, texts in macros.items()])


def brief(comment):
    """What a page is about, for its first line: the comment's first words."""
    text = re.split(r"[,;:.](?=\s|$)", " ".join(comment))[0].replace("`", "")
    return escaped(text[0].lower() + text[1:])


def narrow(prototype):
    """A prototype whose lines fit a page: the last parameter of one that does not goes on a line of its own."""
    below = ",\n" + " " * (prototype.index("(") + 1)
    return "\n".join(below.join(line.rsplit(", ", 1)) if len(line) > PROTOTYPE_MAX else line for line in prototype.split("\n"))


def synopsis(prototype=""):
    out = [".SH SYNOPSIS", ".nf", r"\fB#include <hcube.h>\fR"]
    if prototype:
        marked = re.sub(r"(\w+)(?=[,)])", r"\\fI\1\\fB", narrow(prototype + ";"))
        out += [".PP", *(rf"\fB{line}\fR" for line in marked.split("\n"))]
    return out + [".fi", ".PP", r"Compile and link with \fB$(pkg\-config \-\-cflags \-\-libs hcube)\fR."]


def page(header, name, about, date, parts):
    """The text of a page; `parts` stand behind its first section."""
    return "\n".join([
        rf".\" {header.licence}",
        r".\" Written by tools/manual.py from include/hcube.h; do not edit.",
        f'.TH {name.upper()} 3 {date} "hcube {header.version()}" "hcube library"',
        ".nh", ".ad l",
        ".SH NAME", *wrapped(rf"{name} \- {about}"), *parts]) + "\n"


def pages(header, date):
    """Each page's name with its text."""
    names = ["hcube"] + [name for name, _, _ in header.functions]
    for name, prototype, comment in header.functions:
        also = ",\n".join(rf"\fB{other}\fR(3)" for other in names if other != name)
        yield name, page(header, name, brief(comment), date, [
            *synopsis(prototype), ".SH DESCRIPTION", *body(comment), ".SH SEE ALSO", also])
    functions = tagged([(name, [brief(comment)]) for name, _, comment in header.functions], "(3)")
    macros = []
    for comment, group in header.groups:
        macros += [".PP", *body(comment, lambda line: ""), *macro_list(group)]
    about = re.sub(r"^hcube\.h: ", "", header.first[0])
    yield "hcube", page(header, "hcube", brief([about]), date, [
        *synopsis(), ".SH DESCRIPTION", *body(header.first), ".SH FUNCTIONS", *functions, ".SH MACROS", *macros[1:]])


def main():
    if len(sys.argv) != 3:
        fail("two words are wanted: a header, and the folder for the pages")
    source, folder = sys.argv[1:]
    try:
        with open(source, encoding="utf-8") as file:
            header = Header(file.read())
        seconds = float(os.environ.get("SOURCE_DATE_EPOCH") or os.stat(source).st_mtime)
        date = time.strftime("%Y-%m-%d", time.gmtime(seconds))
        for name, text in pages(header, date):
            with open(os.path.join(folder, name + ".3"), "w", encoding="utf-8") as file:
                file.write(text)
    except (OSError, ValueError) as error:
        fail(str(error))


main()
