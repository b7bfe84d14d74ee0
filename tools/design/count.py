#!/usr/bin/env python3
"""Lists, in src/ of every crate, the places that docs/DESIGN-PASS.md counts: count.py [COMMIT]. Without a commit it reads the work tree.
A line is a candidate: the page says which of them are places, and finds by reading what no pattern shows."""
import collections, pathlib, re, subprocess, sys

ROOT = pathlib.Path(__file__).resolve().parents[2]


def sources(commit):
    if commit:
        names = subprocess.run(["git", "ls-tree", "-r", "--name-only", commit, "crates"], cwd=ROOT, capture_output=True, text=True, check=True).stdout.split()
        names = [n for n in names if "/src/" in n]
        return {n: subprocess.run(["git", "show", f"{commit}:{n}"], cwd=ROOT, capture_output=True, text=True, check=True).stdout for n in names}
    return {str(p.relative_to(ROOT)): p.read_text() for p in sorted(ROOT.glob("crates/*/src/**/*.rt"))}


class Function:
    def __init__(self, file, line, text):
        self.file, self.line = file, line
        self.name = re.search(r"fn (\w+)", text).group(1)
        head, _, rest = text.partition("\n{\n") if "\n{\n" in text else text.partition(" {\n")
        self.head, self.body = head, rest
        sign = re.split(r"\n\s*(?:requires|ensures)", head)[0]
        found = re.search(r"\((.*)\)\s*(?:-> (.*))?$", sign, re.S)
        self.params = re.findall(r"(\w+): ([^,()]+(?:\([^)]*\))?)", found.group(1)) if found else []
        self.result = (found.group(2) or "").strip() if found else ""
        self.facts = re.findall(r"requires (?:\w+ )?\{ (.*) \}", head)
        self.exported = 'extern "C"' in sign

    def place(self):
        return f"{self.file}:{self.line} {self.name}"


def functions(files):
    for file, text in files.items():
        lines = text.split("\n")
        i = 0
        while i < len(lines):
            found = re.match(r"(\s*)(pub(\(\w+\))? )?(extern \"C\" )?fn \w+", lines[i])
            if not found:
                i += 1
                continue
            end = i
            while lines[end] != found.group(1) + "}" and not lines[end].rstrip().endswith(";") and end + 1 < len(lines):
                end += 1
            yield Function(file, i + 1, "\n".join(lines[i : end + 1]).replace("\n" + found.group(1), "\n"))
            i = end + 1


def shape(body):
    body = re.sub(r"//.*", "", body)
    body = re.sub(r'b?"[^"]*"|\b\d\w*\b', "N", body)
    return tuple(re.sub(r"\w+", "I", t) if re.match(r"[A-Za-z_]\w*$", t) and t not in KEPT else t for t in re.findall(r"\w+|[^\w\s]", body))


KEPT = {"if", "else", "while", "for", "match", "return", "let", "mut", "loop", "as", "N"}


def show(title, rows):
    print(f"\n== {title}: {len(rows)}")
    for row in rows:
        print("  " + row)


def main():
    files = sources(sys.argv[1] if len(sys.argv) > 1 else None)
    fns = list(functions(files))
    at = [(f, i + 1, line) for f, text in files.items() for i, line in enumerate(text.split("\n"))]

    def grep(pattern, keep=lambda line: True):
        return [f"{f}:{i} {line.strip()}" for f, i, line in at if re.search(pattern, line) and keep(line)]

    show("1a own enums", grep(r"^(pub )?enum "))
    show("1b functions that answer a u32, exports aside", [f.place() for f in fns if f.result == "u32" and not f.exported])
    show("1c a number that stands for none", grep(r"n where|never answered|both 0 where"))
    show("1d numbers for kinds", grep(r"^(pub )?const [A-Z_]+: "))
    same = collections.defaultdict(list)
    for f in fns:
        if len(f.body.split("\n")) > 3:
            same[shape(f.body)].append(f.place())
    show("2 functions of one shape", [" = ".join(v) for v in same.values() if len(v) > 1])
    show("3 loops by hand", grep(r"^\s*('\w+: )?(while|loop)\b"))
    show("4 conversions, copies and the like by hand", [f.place() for f in fns if re.match(r"(pack|put_row|row_byte|larger|largest|copy|clear|refusal$|place$|made|has_row|is_digit|is_above|settled_byte|write$|read_full)", f.name)])
    facts = collections.defaultdict(list)
    for f in fns:
        for fact in f.facts:
            for part in re.split(r" × ", fact):
                part = part.strip("() ")
                if len(part) > 3:
                    facts[re.sub(r"\.(now|old)", "", part)].append(f"{f.file.split('/')[1]}::{f.name}")
    show("5a facts in the requires of three or more functions", [f"{k}: {len(v)}: {', '.join(v)}" for k, v in sorted(facts.items(), key=lambda x: -len(x[1])) if len(v) > 2])
    pairs = collections.defaultdict(set)
    for f in fns:
        for a, b in zip(f.params, f.params[1:]):
            if not f.exported:
                pairs[f"{a[0]}: {a[1].strip()}, {b[0]}: {b[1].strip()}"].add(f"{f.file.split('/')[1]}::{f.name}")
    show("5b parameters side by side in three or more functions", [f"{k}: {len(v)}: {', '.join(sorted(v))}" for k, v in sorted(pairs.items(), key=lambda x: -len(x[1])) if len(v) > 2])
    show("6 arrays of a fixed length", grep(r"\[(0?u(8|16|32)); \d+\]"))
    show("7 flags handed over", [f"{f.place()}: {', '.join(p[0] for p in f.params if p[1].strip() == 'bool')}" for f in fns if any(p[1].strip() == "bool" for p in f.params)])


main()
