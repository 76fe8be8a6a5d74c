"""The stack that a call of an archive needs, read from its disassembly (x86-64).

A function's frame is all that it pushes and subtracts from the stack pointer, wherever that stands in
it, and what it uses below the stack pointer (at most 128 bytes, the red zone). That is never too
little, since the code puts back what it took before it takes it again; whatever moves the stack
pointer otherwise is refused. A call costs 8 bytes for its return address.
"""
import os
import re
import subprocess

RED_ZONE = 128
CALLED = 256  # the frame of a function under the entry stays below: off the deepest path the sum would not show an array
LIBRARY = {"memset", "memmove"}  # the C library's, whose stack the header leaves out
TOP = 1 << 64


class Refused(Exception):
    """The stack of a call has no bound that the check can read."""


class Function:
    def __init__(self, name):
        self.name, self.pushed, self.below, self.calls, self.odd = name, 0, 0, [], None

    def frame(self):
        return self.pushed + self.below


def disassembly(archive):
    try:
        done = subprocess.run(["objdump", "-d", "-r", "-w", "--no-show-raw-insn", archive], env=dict(os.environ, LC_ALL="C"),
                              stdout=subprocess.PIPE, stderr=subprocess.PIPE, universal_newlines=True)
    except FileNotFoundError:
        raise Refused("needs objdump: none found")
    if done.returncode != 0:
        raise Refused(f"objdump: {done.stderr.strip()}")
    return done.stdout


def moved(operation, operands):
    """The bytes by which an instruction lowers the stack pointer, or None if it is not one that is read."""
    if operation in ("push", "pushf", "pushq"):
        return 8
    if operation in ("leave", "leaveq") or not re.search(r"(^|,)%[er]?spl?$", operands):
        return 0
    amount = re.fullmatch(r"\$0x([0-9a-f]+),%rsp", operands)
    if operation in ("sub", "add") and amount:
        number = int(amount[1], 16)
        number = number - TOP if number >= TOP // 2 else number
        return max(0, number if operation == "sub" else -number)
    amount = re.fullmatch(r"(-?)0x([0-9a-f]+)\(%rsp\),%rsp", operands)
    if operation == "lea" and amount:
        return int(amount[2], 16) if amount[1] else 0
    return 0 if (operation, operands) == ("mov", "%rbp,%rsp") else None


def take(function, operation, operands):
    """Adds what an instruction does to the stack."""
    lowered = moved(operation, operands)
    if lowered is None or operation == "enter" or operation == "xchg" and "%rsp" in operands:
        function.odd = function.odd or f"moves the stack pointer by {operation} {operands}"
    else:
        function.pushed += lowered
    for depth, index in re.findall(r"-0x([0-9a-f]+)\(%rsp(,)?", operands):
        if operation != "lea" or not operands.endswith(",%rsp"):
            function.below = max(function.below, RED_ZONE if index else int(depth, 16))
    if operation.startswith(("call", "j")) and operands.startswith("*"):
        function.odd = function.odd or f"has an indirect {'call' if operation.startswith('call') else 'jump'}"


def functions(text):
    """Every function of a disassembly by its name. A relocation names a function, or its section and the place there."""
    if not re.search(r"file format elf64-x86-64", text):
        raise Refused("the archive is not for x86-64")
    found, starts, section, function = {}, {}, "", None
    for line in text.split("\n"):
        head = re.fullmatch(r"([0-9a-f]+) <(.+)>:", line)
        if line.startswith("Disassembly of section "):
            section = line[len("Disassembly of section "):-1]
        elif head:
            if head[2] in found:
                raise Refused(f"two functions are named {head[2]}")
            function = found[head[2]] = Function(head[2])
            starts[section, int(head[1], 16)] = head[2]
        elif re.match(r" *[0-9a-f]+:\t", line):
            instruct(function, line)
    for one in found.values():
        one.calls = sorted({starts.get(call, call[0]) if isinstance(call, tuple) else call for call in one.calls})
    return found


def instruct(function, line):
    """Takes up a line of the disassembly: an instruction, and its relocation if it has one."""
    place, instruction, *relocation = line.strip().split("\t")
    words = [word for word in instruction.split() if word not in ("notrack", "bnd", "rep", "repz", "lock", "data16", "cs")]
    operation, operands = (words + [""])[0], " ".join(words[1:]).split(" #")[0]
    take(function, operation, operands)
    if not operation.startswith(("call", "j")) or operands.startswith("*"):
        return
    target = re.search(r"R_X86_64_\w+\s+(\S+?)([+-]0x[0-9a-f]+)?$", " ".join(relocation))
    if target:
        function.calls.append((target[1], int(target[2] or "0", 16) + 4))
        return
    label = re.search(r"<(.+?)(\+0x[0-9a-f]+)?>$", operands)
    if not label:
        function.odd = f"jumps to {operands}"
    elif operation.startswith("call") or label[1] != function.name:
        function.calls.append(label[1])


def deepest(found, name, above=()):
    """(bytes, path) of the most stack that a function needs, the calls under it counted."""
    if name in above:
        raise Refused(f"{name} calls itself: {' '.join(above)} {name}")
    if name not in found:
        if name not in LIBRARY:
            raise Refused(f"{above[-1]} calls {name}, which is not in the archive")
        return 0, [(name, 0)]
    function = found[name]
    if function.odd:
        raise Refused(f"{name} {function.odd}")
    below = [(0, [])]
    for call in function.calls:
        deep, path = deepest(found, call, above + (name,))
        below.append((8 + deep, path))
    most, path = max(below, key=lambda pair: pair[0])
    return function.frame() + most, [(name, function.frame())] + path


def reached(found, name, seen=None):
    """A function and all that it reaches, each once, in the order of the calls."""
    seen = [] if seen is None else seen
    if name not in seen:
        seen.append(name)
        for call in found[name].calls if name in found else []:
            reached(found, call, seen)
    return seen


def check(archive, bounds, needed):
    """(problems, figures, one phrase for each entry) of the entries' stack, each against its bound."""
    problems, figures, phrases = [], [], []
    try:
        found = functions(disassembly(archive))
        for entry in (entry for entry in needed if entry not in found):
            problems.append(f"the archive has no {entry}")
        for entry, bound in ((entry, bound) for entry, bound in bounds.items() if entry in found):
            deep, path = deepest(found, entry)
            total = 8 + deep
            deepest_path = " > ".join(f"{name} {frame}" for name, frame in path)
            frames = ", ".join(f"{name} {found[name].frame()}" if name in found else name for name in reached(found, entry))
            figures += [f"{entry}: {total} bytes of at most {bound}", f"  deepest: {deepest_path}", f"  frames: {frames}"]
            phrases.append(f"{entry} {total} of {bound}")
            large = [f"{name} has a frame of {found[name].frame()} bytes, not below {CALLED}" for name in reached(found, entry)[1:]
                     if name in found and CALLED <= found[name].frame()]
            problems += [problem for problem in large if problem not in problems]
            if bound < total:
                problems.append(f"{entry} needs {total} bytes of stack, above {bound}: {deepest_path}")
    except Refused as refused:
        problems.append(str(refused))
    return problems, figures, phrases
