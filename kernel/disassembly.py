"""Reads an x86-64 object or archive by objdump: its functions, symbols, sections and relocations.

kernel/check judges what is read here.
"""
import functools
import re
import shutil
import subprocess
from dataclasses import dataclass, field

PREFIXES = {"data16", "addr32", "rep", "repz", "repnz", "repe", "repne", "lock", "notrack", "bnd",
            "cs", "ds", "es", "ss", "fs", "gs", "xacquire", "xrelease"}


class NotReadable(Exception):
    """The file is not an object that can be judged."""


@dataclass
class Relocation:
    kind: str  # without R_X86_64_
    target: str  # a symbol or a section
    addend: int


@dataclass
class Instruction:
    address: int
    name: str  # the mnemonic, without prefixes
    text: str  # as objdump writes it, without prefixes and comments
    relocation: object = None


@dataclass(eq=False)
class Function:
    name: str
    section: str
    address: int
    member: int  # of an archive, counted from 1
    instructions: list = field(default_factory=list)


@dataclass(eq=False)
class Object:
    functions: dict = field(default_factory=dict)  # by (member, section, address)
    exported: set = field(default_factory=set)
    undefined: set = field(default_factory=set)
    writable: list = field(default_factory=list)
    relocation_kinds: set = field(default_factory=set)

    def function_named(self, member, name):
        """The function that this name has in this member, else the one that another member exports."""
        same = [function for function in self.functions.values() if function.name == name]
        own = [function for function in same if function.member == member]
        return next(iter(own or (same if name in self.exported else [])), None)


@functools.lru_cache
def objdump_command():
    """An objdump that knows x86-64; the machine may be another."""
    for name in ("objdump", "x86_64-linux-gnu-objdump"):
        path = shutil.which(name)
        if path and "elf64-x86-64" in subprocess.run([path, "-i"], capture_output=True, text=True).stdout:
            return path
    raise NotReadable("there is no objdump for x86-64 (Debian: binutils, or binutils-x86-64-linux-gnu)")


def objdump(path, *words):
    run = subprocess.run([objdump_command(), "-w", *words, "--", path], capture_output=True, text=True, errors="replace")
    if run.returncode:
        raise NotReadable(run.stderr.strip() or run.stdout.strip() or "objdump failed")
    return run.stdout.splitlines()


def members(lines):
    """(member, line) for each line; an archive's members go by their place, so names may repeat."""
    count = 0
    for line in lines:
        heading = re.match(r".*:\s+file format (\S+)$", line)
        if not heading:
            yield count, line
            continue
        count += 1
        if heading.group(1) != "elf64-x86-64":
            raise NotReadable(f"its format is {heading.group(1)}")


def read_symbols(path, thing):
    defined = set()
    for _, line in members(objdump(path, "-t")):
        row = re.match(r"[0-9a-f]+ (.{7}) (\S+)\t[0-9a-f]+ (?:\.hidden )?(.+)$", line)
        if not row or row.group(1)[0] not in "gu! " or "d" in row.group(1)[5]:
            continue
        _, section, name = row.groups()
        if section == "*UND*":
            thing.undefined.add(name)
        elif section != "*ABS*":
            defined.add(name)
            thing.exported.add(name)
    thing.undefined -= defined


def read_sections(path, thing):
    for _, line in members(objdump(path, "-h")):
        row = re.match(r"\s*\d+ (\S+)\s+([0-9a-f]+)\s.*2\*\*\d+\s+(.*)$", line)
        if not row:
            continue
        name, size, flags = row.groups()
        if name == ".modinfo":
            raise NotReadable("it is a whole module; check hcube_x86_64.o, which Kbuild made beside it")
        if int(size, 16) and "ALLOC" in flags and not re.search("READONLY|CODE", flags):
            thing.writable.append(name)


def read_relocations(path, thing):
    for _, line in members(objdump(path, "-r")):
        row = re.match(r"[0-9a-f]+ R_X86_64_(\S+)\s", line)
        if row:
            thing.relocation_kinds.add(row.group(1))


def read_instruction(line):
    """The instruction that a line of the disassembly has, or nothing."""
    row = re.match(r"\s*([0-9a-f]+):\t(.*)$", line)
    if not row:
        return None
    text, _, relocation = row.group(2).partition("\t")
    words = text.split("#")[0].split()
    while len(words) > 1 and (words[0] in PREFIXES or words[0].startswith("rex")):
        words = words[1:]
    if not words:
        return None
    found = Instruction(int(row.group(1), 16), words[0], " ".join(words))
    parts = re.match(r"\s*[0-9a-f]+: R_X86_64_(\S+)\t(.+?)([+-]0x[0-9a-f]+)?$", relocation)
    if parts:
        found.relocation = Relocation(parts.group(1), parts.group(2), int(parts.group(3) or "0", 16))
    return found


def read_functions(path, thing):
    section, function = "", None
    for member, line in members(objdump(path, "-d", "-r", "--no-show-raw-insn")):
        heading = re.match(r"Disassembly of section (.*):$", line)
        start = re.match(r"([0-9a-f]+) <(.+)>:$", line)
        if heading:
            section = heading.group(1)
        elif start:
            function = Function(start.group(2), section, int(start.group(1), 16), member)
            thing.functions[member, section, function.address] = function
        elif function:
            instruction = read_instruction(line)
            if instruction:
                function.instructions.append(instruction)


def read_object(path):
    thing = Object()
    read_symbols(path, thing)
    read_sections(path, thing)
    read_relocations(path, thing)
    read_functions(path, thing)
    if not thing.exported:
        raise NotReadable("it exports no function")
    return thing
