"""Tells the most stack that functions of an archive use, from their machine code: stack.py OBJDUMP ARCHIVE WANTED..

WANTED is 'FUNCTION', 'FUNCTION without CALLEE' (the ways through it that do not enter CALLEE), and with ' within BYTES' behind
it a budget, which is judged: one that is not kept ends this with 1.

The depth is followed through each function (push, pop, sub, add), with what a leaf keeps below its stack pointer, and
along each call; the return address counts, arguments that the caller puts on the stack do not. A call or a change of the
stack pointer that cannot be followed is an error, never a guess."""
import re
import subprocess
import sys

FUNCTION = re.compile(r"^[0-9a-f]+ <(.+)>:$")
INSTRUCTION = re.compile(r"^ *([0-9a-f]+):\t(\S+) *(.*)$")
RELOCATION = re.compile(r"^\s+[0-9a-f]+: R_X86_64_(?:PLT32|PC32)\s+(\S+)-0x4$")
TARGET = re.compile(r"^([0-9a-f]+) <([^+>]+)")
BELOW = re.compile(r"(-0x[0-9a-f]+)\(%rsp[,)]")
WANTED = re.compile(r"^(.+?)(?: without (.+?))?(?: within ([0-9]+))?$")
RETURN_ADDRESS = 8


class Unknown(Exception):
    """Something that the depth cannot be followed through."""


def read(objdump, archive):
    """Every function as a list of [address, name, operands, relocation]."""
    text = subprocess.run([objdump, "-dr", "--no-show-raw-insn", archive], check=True, capture_output=True, text=True)
    if "file format elf64-x86-64" not in text.stdout:
        raise Unknown(f"{archive} is not x86-64 code")
    functions, code = {}, []
    for line in text.stdout.splitlines():
        function, instruction, relocation = FUNCTION.match(line), INSTRUCTION.match(line), RELOCATION.match(line)
        if function:
            code = functions.setdefault(function.group(1), [])
        elif instruction:
            operands = instruction.group(3).split("#")[0].strip()
            code.append([int(instruction.group(1), 16), instruction.group(2), operands, None])
        elif relocation and code:
            code[-1][3] = re.sub(r"^\.text\.", "", relocation.group(1))
    return functions


def moved(name, operands, depth):
    """The depth after an instruction."""
    if name.startswith("push"):
        return depth + 8
    if name.startswith("pop"):
        return depth - 8
    if not operands.endswith(",%rsp") or name.startswith(("cmp", "test")):
        return depth
    amount = re.match(r"^\$(0x[0-9a-f]+),%rsp$", operands)
    if amount and name.startswith("sub"):
        return depth + int(amount.group(1), 16)
    if amount and name.startswith("add"):
        return depth - int(amount.group(1), 16)
    raise Unknown(f"{name} {operands}")


def after(code, index):
    """The instructions that may follow one in its function, and the other function that it goes to, if any."""
    _, name, operands, relocation = code[index]
    if name.startswith(("ret", "ud2", "hlt")):
        return [], None
    following = [] if name.startswith("jmp") or index + 1 == len(code) else [index + 1]
    if not name.startswith(("j", "call")):
        return following, None
    if name.startswith("jmp") and operands.startswith("*"):
        return following, None
    target = TARGET.match(operands)
    if not target:
        raise Unknown(f"{name} {operands}")
    places = [i for i, line in enumerate(code) if line[0] == int(target.group(1), 16)]
    if relocation or name.startswith("call") or not places:
        return following, relocation or target.group(2)
    return following + places, None


def depths(code):
    """The depth before each instruction; places that only a jump table reaches have the depth of that jump."""
    before, work = {0: 0}, [0]
    while work or len(before) < len(code):
        if not work:
            tables = {before[i] for i in before if code[i][1] == "jmp" and code[i][2].startswith("*")}
            missing = min(i for i in range(len(code)) if i not in before)
            before[missing] = max(tables, default=0)
            work.append(missing)
        index = work.pop()
        depth = moved(code[index][1], code[index][2], before[index])
        for following in after(code, index)[0]:
            if following not in before:
                before[following] = depth
                work.append(following)
    return before


def most(functions, name, left_out=None, path=()):
    """The most bytes below the return address of a function, and the calls that lead there; one callee may be left out."""
    if name in path:
        raise Unknown(f"recursion through {name}")
    if name not in functions:
        raise Unknown(f"a call of {name}, which is not in the archive")
    code, deepest, way = functions[name], 0, ()
    for index, depth in depths(code).items():
        _, mnemonic, operands, _ = code[index]
        below = BELOW.search(operands)
        here = moved(mnemonic, operands, depth) - (int(below.group(1), 16) if below else 0)
        callee = after(code, index)[1]
        if callee and callee != left_out:
            inner, calls = most(functions, callee, left_out, path + (name,))
            inner += depth + (RETURN_ADDRESS if mnemonic.startswith("call") else 0)
            if inner > deepest:
                deepest, way = inner, calls
        if here > deepest:
            deepest, way = here, ()
    return deepest, (name,) + way


def called(functions, name, left_out=None):
    """The functions that one calls, itself or through others, but not through the one left out."""
    found, work = set(), [name]
    while work:
        code = functions.get(work.pop(), [])
        new = {after(code, index)[1] for index in range(len(code))} - found - {None, left_out}
        found |= new
        work.extend(new)
    return found


def stand_apart(functions, name, left_out):
    """A callee that is left out has to be there, and nothing that it calls may be called past it: else it is a part of the
    function's own frame, wholly or at one of its calls."""
    if left_out not in functions:
        raise Unknown(f"{name} without {left_out}, which is not in the archive")
    if left_out not in called(functions, name):
        raise Unknown(f"{name} without {left_out}, which it never calls")
    past = called(functions, name, left_out) & called(functions, left_out)
    if past:
        raise Unknown(f"{name} without {left_out}, past which it calls {', '.join(sorted(past))}")


def tell(functions, wanted):
    """Prints a line for what is wanted; answers whether its budget is kept."""
    name, left_out, budget = WANTED.match(wanted).groups()
    deepest, way = most(functions, name, left_out)
    if left_out:
        stand_apart(functions, name, left_out)
    bytes_used = (deepest + RETURN_ADDRESS + 7) // 8 * 8
    kept = budget is None or bytes_used <= int(budget)
    without = f" without {left_out}" if left_out else ""
    verdict = f"; at most {budget} allowed, {'kept' if kept else 'NOT KEPT'}" if budget else ""
    print(f"{name}{without}: at most {bytes_used} bytes of stack, through {' > '.join(way)}{verdict}")
    return kept


def main():
    try:
        functions = read(sys.argv[1], sys.argv[2])
        kept = [tell(functions, wanted) for wanted in sys.argv[3:]]
    except Unknown as reason:
        print(f"not known: {reason}")
        return 1
    return 0 if all(kept) else 1


sys.exit(main())
