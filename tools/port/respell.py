#!/usr/bin/env python3
"""respell.py: brings the repository's own names to the spelling of today's Rattle. Run once, at the top, right after the kit's port.py.

The kit's script respells the library's names, and of ours those that are spelled like one of them. This one does the rest:
- a definition, a lemma or a field in camel case or with dashes gets underscores: nodeBit is node_bit, no-circle is no_circle;
- a name that would meet another of ours, one of the library's that our files import, or that of a Rust function keeps its dashes;
- specs/Contracts.antt of cube is specs/Allowed.antt: the check makes a module `contracts` beside it.
Functions of src/, exported names, strings, inputs and outputs stay. It prints what it respelled and what it left."""
import collections
import glob
import os
import re
import subprocess

DECLARED = re.compile(r"^ *(?:pub |abbrev |unfoldable )*([^\s(){}.;,:]+)(?: \{[^{}]*\})* :(?=\s|$)", re.M)
TYPED = re.compile(r"^ *(?:pub )?(?:data|record) ([^\s(){}:]+)", re.M)
TOKEN = re.compile(r'[^\s(){}.;,@"«»]+')
FN = re.compile(r"\bfn (\w+)")


def texts(*patterns):
    return {f: open(f, encoding="utf-8").read() for p in patterns for f in sorted(glob.glob(p, recursive=True))}


def underscored(name):
    return re.sub(r"(?<=[a-z0-9])[A-Z]", lambda m: "_" + m[0].lower(), name).replace("-", "_")


# Lemmas of one crate that the kit's script spelled as a definition is spelled now.
for crate, old, new in (("ranges", "is_digit", "is_digit_up"), ("printed", "too_long", "long_input")):
    for f, text in texts(f"crates/{crate}/proofs/**/*.antt").items():
        again = re.sub(rf"(?<![\w.-]){old}(?![\w-]|  *= )", new, text)
        if again != text:
            open(f, "w", encoding="utf-8").write(again)

antt = texts("crates/**/*.antt")
rust = texts("crates/*/src/**/*.rt")
ours = {f: t for f, t in antt.items() if re.fullmatch(r"crates/\w+/(specs|proofs)/\w+\.antt", f)}

declared = set()
for text in ours.values():
    code = re.sub(r"--.*", "", text)
    declared |= set(DECLARED.findall(code)) | set(TYPED.findall(code))
functions = {name for text in rust.values() for name in FN.findall(text)}
imported = set()
for text in list(antt.values()) + list(rust.values()):
    for path, names in re.findall(r"^(?:ghost )?use ([^\s{;]+)\.\{([^}]*)\}", text, re.M):
        if not re.match(r"Rattle\.(?!std\b|core\b)", path):
            imported |= {n.strip() for n in names.split(",")}
seen = {token for text in list(antt.values()) + list(rust.values()) for token in TOKEN.findall(re.sub(r"--.*|//.*", "", text))}

table = {}
for name in sorted(declared):
    if re.match(r"[a-z]", name) and underscored(name) != name and not re.search(r"[≢≡⊎ℕ×∷]", name):
        table[name] = underscored(name)
left = {}
by_new = collections.defaultdict(list)
for old, new in table.items():
    by_new[new].append(old)
for new, olds in by_new.items():
    dashed = [o for o in olds if "-" in o]
    camel = [o for o in olds if "-" not in o]
    if len(olds) > 1 or new in declared or new in imported or new in seen:
        for o in dashed:
            left[o] = "it would meet another name"
    if new in functions:
        for o in dashed:
            left[o] = "a Rust function's"
    for o in camel:
        if new in imported:
            left[o] = "a name of the library is spelled so"
for old in left:
    del table[old]


def turned(text, comments):
    out = []
    for line in text.split("\n"):
        code, mark, rest = line, "", ""
        m = re.search(comments, line)
        if m:
            code, mark, rest = line[: m.start()], line[m.start() : m.end()], line[m.end() :]
        code = TOKEN.sub(lambda m: table.get(m[0], m[0]), code)
        rest = re.sub(r"`[^`]*`", lambda m: TOKEN.sub(lambda k: table.get(k[0].strip("`"), k[0].strip("`")).join(["`" if k[0].startswith("`") else "", "`" if k[0].endswith("`") and len(k[0]) > 1 else ""]), m[0]), rest)
        rest = re.sub(r"\b[a-z]+[A-Z]\w*\b", lambda m: table.get(m[0], m[0]), rest)
        out.append(code + mark + rest)
    return "\n".join(out)


changed = 0
for f, text in antt.items():
    new = turned(text, r"(?<![^\s])--(?=\s|$|-)")
    new = new.replace("cube.specs.Contracts", "cube.specs.Allowed")
    if f == "crates/cube/specs/Lib.antt":
        new = new.replace("pub mod Contracts", "pub mod Allowed")
    if new != text:
        open(f, "w", encoding="utf-8").write(new)
        changed += 1
for f, text in rust.items():
    new = turned(text, r"//")
    if new != text:
        open(f, "w", encoding="utf-8").write(new)
        changed += 1
if os.path.exists("crates/cube/specs/Contracts.antt"):
    subprocess.run(["git", "mv", "crates/cube/specs/Contracts.antt", "crates/cube/specs/Allowed.antt"], check=True)
print(f"respelled: {len(table)} names in {changed} files")
for old in sorted(left):
    print(f"left: {old}: {left[old]}")
