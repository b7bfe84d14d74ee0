#!/usr/bin/env python3
"""edits.py [--write] [CRATE..]: brings crates/*/must-fail/*.edit to today's spelling. Run at the top, once port.py and respell.py have run.

The edits were written for the commit BASE. Each file's lines of then are set beside today's, and from lines that stand for one another it learns how each token
is spelled now; so it turns `old:` and `new:`. A pair is turned only where the new `old:` stands exactly once in today's file, with the earlier pairs applied; a
pair of import lines becomes what is still to be imported, or goes. The first lines, which say what is wrong, keep their words. What it can't do it lists: pairs
of a proofs/F/Proof.antt, which goes away, and pairs whose text no longer stands."""
import collections
import difflib
import glob
import os
import re
import subprocess
import sys

BASE = "f15a4d2"
MOVED = {"crates/cube/specs/Contracts.antt": "crates/cube/specs/Allowed.antt"}
TOKEN = re.compile(r'[^\s(){}.;,@"«»]+|[(){}.;,@"«»]')
NAME = re.compile(r'[^\s(){}.;,@"«»]+')
USE = re.compile(r"^((?:ghost )?use) ([^\s{;]+)\.\{([^}]*)\}(;?)$")
LIBRARY = r"(?:mathlib|lib|Prim|borrow|native|kernel)"


def git(*words):
    return subprocess.run(["git", *words], capture_output=True, text=True).stdout


def project(s):
    """`f x .y` was the part y of `f x`: today `(f x).y`; `x .y` is `x.y`."""
    while True:
        m = re.search(r"(?<=[^\s=→∙λ,(⌜]) \.(?=[A-Za-z0-9_])", s)
        if not m:
            return s
        i, atoms, start = m.start(), 0, m.start()
        while i > 0:
            if s[i - 1] in ")}":
                depth, j = 0, i
                while j > 0:
                    j -= 1
                    depth += (s[j] in ")}") - (s[j] in "({")
                    if depth == 0:
                        break
                if depth:
                    break
                # what is written on to it
                word = re.search(r"[^\s(){},;]*$", s[:j])[0]
                j -= len(word)
            else:
                word = re.search(r"[^\s(){},;]+$", s[:i])
                if not word:
                    break
                j = word.start()
                t = s[j:i]
                if t.endswith(".") or t in ("in", "let", "of", "as", "at", "rw", "←", "=", "|") or not re.search(r"[\w']", t) or re.fullmatch(r"_[^\w]+_", t):
                    break
            atoms += 1
            start = j
            if j == 0 or s[j - 1] != " ":
                break
            i = j - 1
            while i > 0 and s[i - 1] == " ":
                i -= 1
        if atoms > 1:
            s = s[:start] + "(" + s[start : m.start()] + ")" + s[m.start() + 1 :]
        else:
            s = s[: m.start()] + s[m.start() + 1 :]


def tight(s):
    """Projections as today: `r .x` is `r.x`, and `(r .x)` too."""
    s = re.sub(r"\b(Rattle)·(\w+)·(specs|proofs)\.(?:specs|proofs)\.", r"\1.\2.\3.", s)
    s = re.sub(r"\bRattle·(\w+)", r"Rattle.\1", s)
    s = project(s.replace("′", "'"))
    before = None
    while before != s:
        before = s
        s = re.sub(r"(?<![^\s(])\(([^\s(){},;]+(?:\.[A-Za-z0-9_'-]+)+)\)", r"\1", s)
    return s


def flat(token):
    return re.sub(r"[-_◌]", "", token).lower().replace("'", "").replace("′", "")


def key(line):
    s = tight(line)
    s = re.sub(r"[⌜⌝]|λ (?:r|_)\.(?= )", "", s)
    return re.sub(r"\s+", "", re.sub(r"[-_◌]", "", s).lower())


def lines_beside(old, new):
    """Pairs of line numbers, old and new, that stand for one another."""
    a, b = [key(l) for l in old], [key(l) for l in new]
    out = {}
    for tag, i1, i2, j1, j2 in difflib.SequenceMatcher(a=a, b=b, autojunk=False).get_opcodes():
        if tag == "equal":
            out.update(zip(range(i1, i2), range(j1, j2)))
        elif tag == "replace":
            j = j1
            for i in range(i1, i2):
                best = max(range(j, j2), key=lambda k: difflib.SequenceMatcher(a=a[i], b=b[k], autojunk=False).ratio(), default=None)
                if best is not None and difflib.SequenceMatcher(a=a[i], b=b[best], autojunk=False).ratio() > 0.6:
                    out[i] = best
                    j = best + 1
    return out


def tokens_beside(old, new):
    s, t = NAME.findall(tight(old)), NAME.findall(new)
    for tag, i1, i2, j1, j2 in difflib.SequenceMatcher(a=[flat(x) for x in s], b=[flat(x) for x in t], autojunk=False).get_opcodes():
        if tag == "equal" or (tag == "replace" and i2 - i1 == j2 - j1):
            yield from zip(s[i1:i2], t[j1:j2])


def best(counter):
    return counter.most_common(1)[0][0]


files, maps = {}, {}
everywhere = {"specs": collections.defaultdict(collections.Counter), "proofs": collections.defaultdict(collections.Counter), "src": collections.defaultdict(collections.Counter)}
where = {"specs": collections.defaultdict(collections.Counter), "proofs": collections.defaultdict(collections.Counter), "src": collections.defaultdict(collections.Counter)}


def kind(path):
    return path.split("/")[2]


for path in git("ls-tree", "-r", "--name-only", BASE, "crates").split("\n"):
    if not re.search(r"\.(antt|rt)$", path):
        continue
    now = MOVED.get(path, path)
    text = git("show", f"{BASE}:{path}")
    today = open(now, encoding="utf-8").read() if os.path.exists(now) else None
    m = collections.defaultdict(collections.Counter)
    # A Proof.antt that has gone has taught nothing.
    if today is not None:
        a, b = text.split("\n"), today.split("\n")
        for i, j in lines_beside(a, b).items():
            if re.match(r"(?:ghost )?use ", a[i]) or a[i].strip().startswith(("--", "//")):
                continue
            for s, t in tokens_beside(a[i], b[j]):
                m[s][t] += 1
                everywhere[kind(path)][s][t] += 1
        for line in b:
            u = USE.match(line)
            if u:
                for n in u[3].split(","):
                    where[kind(path)][n.strip()][u[2]] += 1
    files[path] = (text, now, today)
    maps[path] = m


def word(token, path):
    k = kind(path)
    for m in (maps.get(path, {}), everywhere[k], everywhere["proofs"], everywhere["specs"]):
        if token in m:
            return best(m[token])
    if re.fullmatch(r"_[^\w\s]+_", token):
        return token.replace("_", "◌")
    return token


def module(name, path):
    k = kind(path)
    for m in (where[k], where["proofs"], where["specs"]):
        if name in m:
            return best(m[name])
    return None


def turned(text, path):
    """A fragment of a proof or a definition as it is spelled today."""
    def qualified(m):
        name = hole(word(m[2], path))
        at = module(name, path)
        return f"{at}.{name}" if at else m[0]
    s = tight(text)
    s = re.sub(rf"(?<![\w.]){LIBRARY}((?:\.[A-Z]\w*)+)\.([^\s(){{}}.;,]+)", qualified, s)
    s = re.sub(r"\bsearch needs\b", "search rules", s)
    return NAME.sub(lambda m: word(m[0], path), s)


def hole(name):
    return name.replace("_", "◌") if re.fullmatch(r"_[^\w\s]+_|_(?:&&|\|\|)_", name) else name


def imports(line):
    """The names of an import line, or None."""
    m = USE.match(line.strip())
    if m:
        return [n.strip() for n in m[3].split(",")]
    # a part of one, as `Fronts.{lead-within}`
    m = re.fullmatch(r"(?:[\w·.]+\.)?\{([^}]*)\}", line.strip())
    return [n.strip() for n in m[1].split(",")] if m else None


def today_line(old, path):
    """The text of today where `old` is a whole line of then, or the end or the beginning of one."""
    text, now, today = files[path]
    a, b = text.split("\n"), today.split("\n")
    at = [i for i, l in enumerate(a) if old in l]
    if len(at) != 1:
        return None
    j = lines_beside(a, b).get(at[0])
    if j is None:
        return None
    line, new = a[at[0]], b[j]
    if line.strip() == old.strip():
        return new if old == line else new.strip()
    s, t = list(TOKEN.finditer(tight(line))), list(TOKEN.finditer(new))
    if len(s) != len(t):
        return None
    start = len(TOKEN.findall(tight(line[: line.index(old)])))
    n = len(TOKEN.findall(tight(old)))
    if start + n > len(t) or n == 0:
        return None
    out = new[t[start].start() : t[start + n - 1].end()]
    lead = len(old) - len(old.lstrip())
    return (" " * lead if out[:1] != " " else "") + out


def imported_pair(old, new, path, now_text):
    """An import pair: (old, new) of today, () where nothing is left to import, or None."""
    was = imports(old) or []
    want = [n for n in imports(new) or [] if n not in was]
    names = [hole(word(n, path)) for n in want]
    gone = [hole(word(n, path)) for n in was if n not in (imports(new) or [])]
    have = {n.strip() for u in re.finditer(r"^(?:ghost )?use [^\s{;]+\.\{([^}]*)\}", now_text, re.M) for n in u[1].split(",")}
    names = [n for n in names if n not in have]
    out = []
    for n in gone:
        return None
    if not names:
        return ()
    mods = {module(n, path) for n in names}
    if len(mods) != 1 or None in mods:
        return None
    mod = mods.pop()
    m = re.search(rf"^(?:ghost )?use {re.escape(mod)}\.\{{", now_text, re.M)
    if m:
        return m[0], m[0] + ", ".join(names) + ", "
    if not was:
        return old, f"use {mod}.{{{', '.join(names)}}}"
    first = re.search(r"^(?:ghost )?use [^\n]*$", now_text, re.M)
    return None


def comment(line, path):
    def back(m):
        return "`" + NAME.sub(lambda k: word(k[0], path), m[1]) + "`"
    line = re.sub(r"`([^`]*)`", back, line)
    return re.sub(r"\b[a-z]+[A-Z]\w*\b", lambda m: word(m[0], path), line)


def bring(edit):
    crate = "/".join(edit.split("/")[:2])
    lines = open(edit, encoding="utf-8").read().rstrip("\n").split("\n")
    out, said, path, i = [], [], None, 0
    then, texts = {}, {}
    first = next((l[6:].strip() for l in lines if l.startswith("file: ")), None)
    changed = False
    while i < len(lines):
        l = lines[i]
        i += 1
        if l.startswith("file: "):
            path = f"{crate}/{l[6:].strip()}"
            now = MOVED.get(path, path)
            out.append("file: " + now[len(crate) + 1 :])
            continue
        if not l.startswith("old:"):
            out.append(comment(l, f"{crate}/{first}") if l.startswith("#") else l)
            continue
        old = l[5:]
        new = lines[i][5:]
        i += 1
        keep = [f"old: {old}" if old else "old:", f"new: {new}" if new else "new:"]
        if path.endswith("/Proof.antt"):
            out += keep
            said.append(f"{now[len(crate) + 1:]} goes away: {old}")
            continue
        if path not in files and os.path.exists(now):
            # a file that is new today: written by hand
            texts.setdefault(path, open(now, encoding="utf-8").read())
            if texts[path].count(old) != 1:
                said.append(f"{now[len(crate) + 1:]}: {old}")
            texts[path] = texts[path].replace(old, new)
            out += keep
            continue
        if path not in files or files[path][2] is None:
            out += keep
            said.append(f"{path} is gone: {old}")
            continue
        texts.setdefault(path, files[path][2])
        then.setdefault(path, files[path][0])
        text = texts[path]
        if then[path].count(old) != 1 and text.count(old) == 1:
            # brought over before
            out += keep
            texts[path] = text.replace(old, new)
            continue
        code = path.endswith(".rt") and not re.match(r"\s*(?:ensures|requires|ghost use|ghost invariant)\b", old) and "⌜" not in old and "now (" not in old
        pair = None
        if imports(old) is not None or imports(new) is not None:
            if not path.endswith(".rt"):
                pair = imported_pair(old, new, path, text)
        if pair is None and code and text.count(old) == 1:
            pair = (old, new)
        if pair is None and not code and imports(old) is None:
            # a clause with brackets is turned by hand, but where it only goes
            for o in (turned(old, path), today_line(old, path), old):
                if o and text.count(o) == 1 and not ("⌜" in new or "now (" in new):
                    pair = (o, turned(new, path))
                    break
        if pair == ():
            changed = True
            continue
        if pair is None and text.count(old) == 1 and "·" not in old + new:
            pair = (old, new)
        if pair is None or text.count(pair[0]) != 1:
            out += keep
            said.append(f"{path[len(crate) + 1:]}: {old}")
            continue
        then[path] = then[path].replace(old, new)
        texts[path] = text.replace(pair[0], pair[1])
        out += [f"old: {pair[0]}", f"new: {pair[1]}" if pair[1] else "new:"]
    # a file line with no pair behind it goes
    kept = [l for k, l in enumerate(out) if not (l.startswith("file: ") and (k + 1 == len(out) or out[k + 1].startswith("file: ")))]
    return "\n".join(kept) + "\n", said


write = "--write" in sys.argv
only = [a for a in sys.argv[1:] if not a.startswith("-")]
turned_over = 0
for edit in sorted(glob.glob("crates/*/must-fail/*.edit")):
    if only and edit.split("/")[1] not in only:
        continue
    text, said = bring(edit)
    if text != open(edit, encoding="utf-8").read():
        turned_over += 1
        if write:
            open(edit, "w", encoding="utf-8").write(text)
    for s in said:
        print(f"by hand: {edit}: {s}")
print(f"{turned_over} edits {'turned' if write else 'to turn'}")
