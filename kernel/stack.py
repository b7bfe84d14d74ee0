"""Follows the stack pointer through one function, on every path.

Offsets count from the stack pointer at entry, where the return address is: offset 0 is that address and
locals are below it. Registers that hold an address in the stack are followed too, so that a use of
memory below the stack pointer is seen through them. A function whose stack pointer cannot be followed
is refused. kernel/check judges the sizes.
"""
import functools
import re
from dataclasses import dataclass, field

WIDTHS = {}  # each part of a register, as eax, to its whole, as rax
for letter in "abcd":
    WIDTHS.update({part: f"r{letter}x" for part in (f"e{letter}x", f"{letter}x", f"{letter}l", f"{letter}h")})
for pair in ("si", "di", "bp", "sp"):
    WIDTHS.update({f"e{pair}": f"r{pair}", pair: f"r{pair}", f"{pair}l": f"r{pair}"})
for number in range(8, 16):
    WIDTHS.update({f"r{number}{part}": f"r{number}" for part in "dwb"})
CALLER_SAVED = ("rax", "rcx", "rdx", "rsi", "rdi", "r8", "r9", "r10", "r11")
WRITES_MORE = {"mul", "imul", "div", "idiv", "cltd", "cqto", "cwtl", "cltq", "xchg", "xadd", "cmpxchg", "cpuid",
               "rdtsc", "movsb", "movsw", "movsl", "movsq", "stos", "movs", "lods", "cmps", "scas"}
STOPS = {"ud2", "int3", "hlt"}
MEMORY = re.compile(r"(-?0x[0-9a-f]+)?\(%(\w+)(,[^)]*)?\)")


class Refused(Exception):
    """A rule that the function breaks, and where."""


@dataclass
class Frame:
    size: int = 0
    calls: list = field(default_factory=list)  # (bytes taken at the call, function or None, whether it is a tail jump)


def whole(register):
    return WIDTHS.get(register, register)


def operands(text):
    """The operands, split at the commas outside brackets."""
    rest = text.split(" ", 1)
    return re.split(r",(?![^()]*\))", rest[1]) if len(rest) > 1 else []


def number(word):
    return int(word.lstrip("$"), 16) if re.fullmatch(r"\$?-?0x[0-9a-f]+", word) else None


def signed(value):
    return value - (1 << 64) if value >= 1 << 63 else value


def address_of(operand, state):
    """The offset that a memory operand has in the stack, or nothing where that is not known."""
    match = MEMORY.fullmatch(operand)
    base = state.get(match.group(2)) if match else None
    return None if base is None else base + int(match.group(1) or "0", 16)


def refuse_red_zone(instruction, state, where):
    for operand in operands(instruction.text):
        at = address_of(operand, state)
        if at is None or at >= state["rsp"] or instruction.name.startswith("nop"):
            continue
        if not (instruction.name == "lea" and instruction.text.endswith(",%rsp")):
            raise Refused("red zone", where)


def value_written(name, words, state):
    """What a register that the instruction writes last then holds, as an offset in the stack, or nothing."""
    source = words[0]
    if name == "mov" and source.startswith("%") and len(words) == 2:
        return state.get(source[1:])
    if name == "lea":
        match = MEMORY.fullmatch(source)
        return None if not match or match.group(3) else address_of(source, state)
    held, constant = state.get(words[-1][1:]), number(source)
    if held is None or constant is None or len(words) != 2:
        return None
    if name == "add":
        return held + signed(constant)
    if name == "sub":
        return held - signed(constant)
    if name == "and" and signed(constant) < 0:
        return held + signed(constant) + 1  # an alignment: at most that much lower
    return None


def after(instruction, state, where):
    """The registers after the instruction."""
    name = re.sub(r"^(push|pop|mov|lea|add|sub|and)[bwlq]$", r"\1", instruction.name)
    words = operands(instruction.text)
    state = dict(state)
    if name in ("push", "pushf"):
        state["rsp"] -= 8
    elif name in ("pop", "popf"):
        state["rsp"] += 8
        if name == "pop":
            state.pop(whole(words[0][1:]), None)
    elif name == "leave":
        state["rsp"] = state.pop("rbp", None)
        state["rsp"] = None if state["rsp"] is None else state["rsp"] + 8
    elif name == "call":
        for register in CALLER_SAVED:
            state.pop(register, None)
    elif name not in ("cmp", "test") and words and words[-1].startswith("%"):
        target = words[-1][1:]
        value = value_written(name, words, state)
        state.pop(whole(target), None)
        if value is not None:
            state[target] = value
    if name in WRITES_MORE:
        state = {"rsp": state.get("rsp")}
        if "%rsp" in instruction.text:
            state["rsp"] = None
    if state.get("rsp") is None or name == "enter":
        raise Refused("stack pointer that cannot be followed", where)
    return state


def target_of(instruction, function, thing):
    """Where a jump or call leads: an address in this function, a function, or a name that is not defined here."""
    relocation = instruction.relocation
    if not relocation:
        address = int(operands(instruction.text)[0].split()[0], 16)
        inside = any(address == other.address for other in function.instructions)
        if inside and not instruction.name.startswith("call"):
            return address
        return thing.functions.get((function.member, function.section, address))
    offset = relocation.addend + 4  # it counts from the end of the instruction
    if (function.member, relocation.target, offset) in thing.functions:  # the target is a section
        return thing.functions[function.member, relocation.target, offset]
    if offset:
        return None
    return thing.function_named(function.member, relocation.target) or relocation.target


class Follower:
    """Walks the paths of one function and gathers its frame."""

    def __init__(self, function, thing):
        self.function, self.thing, self.frame = function, thing, Frame()
        self.code = {instruction.address: instruction for instruction in function.instructions}
        order = sorted(self.code)
        self.next = dict(zip(order, order[1:]))
        self.seen, self.todo = {}, []

    def reach(self, address, state, where):
        """Takes up the path at this address, with what all paths to it agree on."""
        if address not in self.code:
            raise Refused("path out of the function", where)
        if address in self.seen:
            old = self.seen[address]
            if old["rsp"] != state["rsp"]:
                raise Refused("stack pointer that differs between paths", where)
            state = {register: value for register, value in state.items() if old.get(register) == value}
            if state == old:
                return
        self.seen[address] = state
        self.todo.append(address)

    def leave(self, target, state, is_tail, where):
        """Notes a call of another function, or a jump to it."""
        if target == "__x86_return_thunk" and is_tail:
            return
        if target is None:
            raise Refused("call that leads to no known function", where)
        self.frame.calls.append((-state["rsp"], None if isinstance(target, str) else target, is_tail))

    def step(self, address):
        instruction, state = self.code[address], self.seen[address]
        where = f"{self.function.name}+{address - self.function.address:#x}: {instruction.text}"
        refuse_red_zone(instruction, state, where)
        name = instruction.name
        if name in STOPS or name.startswith("ret") or name.startswith("iret"):
            return
        if "*" in instruction.text:  # refused already, by the instruction alone
            if name.startswith("jmp"):
                return
        elif name.startswith("j"):
            target = target_of(instruction, self.function, self.thing)
            if target is self.function:
                target = self.function.address
            if isinstance(target, int):
                self.reach(target, state, where)
            else:
                self.leave(target, state, True, where)
            if name.startswith("jmp"):
                return
        elif name.startswith("call"):
            self.leave(target_of(instruction, self.function, self.thing), state, False, where)
        state = after(instruction, state, where)
        self.frame.size = max(self.frame.size, -state["rsp"])
        self.reach(self.next.get(address), state, where)

    def run(self):
        self.reach(self.function.address, {"rsp": 0}, self.function.name)
        while self.todo:
            self.step(self.todo.pop())
        return self.frame


@functools.lru_cache(maxsize=None)
def frame_of(function, thing):
    return Follower(function, thing).run()
