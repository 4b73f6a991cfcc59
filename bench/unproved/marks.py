"""Takes away the marks that the toolchain drops: it drops inline(always), with no message, from a function that would grow very
large by what is inlined in it, from the inside out. The limit was found by proved builds: one of 9,632 lines of a module kept its
mark, one of 10,928 lost it."""
import re
import sys

LIMIT = 10_300
DEFINED = re.compile(r'^define .*?@(?:"([^"]*)"|([\w.$]+))\(')
CALLED = re.compile(r'\bcall [^@]*@(?:"([^"]*)"|([\w.$]+))\(')
MARK = " alwaysinline"


class Function:
    """A function of the module: where it begins, how many lines it has, and what it calls, once for each call."""

    def __init__(self, place, is_marked):
        self.place, self.is_marked = place, is_marked
        self.lines, self.calls = 0, []
        self.grown = None


def functions_of(lines):
    """The functions of a module's lines, by their names."""
    found, current = {}, None
    for place, line in enumerate(lines):
        defined = DEFINED.match(line)
        if defined:
            current = found[defined.group(1) or defined.group(2)] = Function(place, MARK in line)
        elif line == "}":
            current = None
        elif current and line.strip() and not line.endswith(":"):
            current.lines += 1
            called = CALLED.search(line)
            if called:
                current.calls.append(called.group(1) or called.group(2))
    return found


def grow(functions, name, dropped):
    """How many lines a function has with what is inlined in it; one that would have too many loses its mark."""
    function = functions[name]
    if function.grown is None:
        function.grown = function.lines
        inner = [it for it in function.calls if it in functions and it != name]
        sizes = [(grow(functions, it, dropped), functions[it].is_marked) for it in inner]
        function.grown += sum(size for size, is_marked in sizes if is_marked)
        if function.is_marked and function.grown > LIMIT:
            function.is_marked = False
            dropped.append((function.place, name, function.grown))
    return function.grown


def without_dropped(lines):
    """The lines of a module without the marks that the toolchain drops, which are told."""
    sys.setrecursionlimit(10_000)
    lines, dropped = list(lines), []
    functions = functions_of(lines)
    for name in functions:
        grow(functions, name, dropped)
    for place, name, size in dropped:
        lines[place] = lines[place].replace(MARK, "")
        print(f"build: {name.split('::<')[0]} would have {size:,} lines: the toolchain drops its inline(always)", file=sys.stderr)
    return lines
