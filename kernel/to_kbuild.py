"""Turns the assembly that clang writes of the proved crate into a .S file for Kbuild.

Standard input to standard output. Functions open and close by the kernel's own macros (alignment, endbr
where the kernel is built with it), a return is the kernel's RET, and names are plain identifiers. The
instructions stay as they are. A directive that is not known here ends the run: it wants a look first.
"""
import re
import sys

HEAD = """\
/* SPDX-License-Identifier: GPL-2.0-only OR MIT */
/*
 * The routing functions of include/hcube.h for a Linux kernel module on x86-64.
 * Written by kernel/build of the source repository from the proved crate hcube; do not edit. docs/KERNEL.md there says how to use it.
 */
#include <linux/linkage.h>

"""
DROPPED = {".file", ".ident", ".globl", ".type"}
KEPT = {".text", ".section", ".p2align", ".byte", ".short", ".long", ".quad", ".zero", ".ascii", ".asciz"}


def plain(line):
    """The line with each quoted name, as "hop::chosen", written as an identifier."""
    if line.split(None, 1)[0] in (".section", ".ascii", ".asciz", ".file", ".ident"):
        return line
    return re.sub(r'"([^"]*)"', lambda name: re.sub(r"[^A-Za-z0-9_]", "_", name.group(1)), line)


def names(lines, pattern):
    """The names that lines of this pattern give."""
    found = (re.fullmatch(pattern, line) for line in lines)
    return {match.group(1) for match in found if match}


def convert(line, functions, exported):
    """The lines that stand for this one in the .S file."""
    word = line.split()[0]
    if word.endswith(":") and word[:-1] in functions:
        start = "SYM_FUNC_START" if word[:-1] in exported else "SYM_FUNC_START_LOCAL"
        return [f"\n{start}({word[:-1]})"]
    if word == ".size":
        name = line.split()[1].split(",")[0]
        return [f"SYM_FUNC_END({name})"] if name in functions else [line]
    if word in ("ret", "retq"):
        return ["\tRET"]
    if word in DROPPED or word.startswith("#"):
        return []
    if word.startswith(".") and not word.endswith(":") and word not in KEPT:
        sys.exit(f"to_kbuild.py: a directive that is not known: {line.strip()}")
    return [line]


def main():
    lines = [plain(line.rstrip("\n")) for line in sys.stdin if line.strip()]
    exported = names(lines, r"\s*\.globl\s+(\S+)")
    functions = names(lines, r"\s*\.type\s+(\S+),@function")
    sys.stdout.write(HEAD)
    for line in lines:
        for text in convert(line, functions, exported):
            print(text)


main()
