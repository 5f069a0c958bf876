"""What can be changed in the library's module, as LLVM's text: one comparison, branch, match, constant, refusal number
or variant of one function at a time."""
import re
from collections import namedtuple

# `number` counts the places of one kind in a function, from 1; `edits` has new texts for lines, by their numbers.
Change = namedtuple("Change", "function kind number what edits")
NOTHING = Change("", "", 0, "", {})

NEIGHBOURS = {"ult": "ule", "ule": "ult", "ugt": "uge", "uge": "ugt", "slt": "sle", "sle": "slt", "sgt": "sge",
              "sge": "sgt", "eq": "ne", "ne": "eq"}
SIGNS = {"lt": "<", "le": "<=", "gt": ">", "ge": ">=", "eq": "==", "ne": "!="}
# The steps of a constant on the left that are not the change of the sign itself; on the right they are the other way.
LEFT_STEPS = {"<": (1,), "<=": (-1,), ">": (-1,), ">=": (1,), "==": (1, -1), "!=": (1, -1)}
VALUE = r"(-?\d+|%[\w.]+)"
# Of the octets that are stored those from here on are refusal numbers, those below tell variants apart.
FIRST_STORED_REFUSAL = 10
# An octet that was not set.
UNSET = 90
DECLARED = {"@llvm.trap(": "declare void @llvm.trap()",
            "@llvm.memset.p0.i64(": "declare void @llvm.memset.p0.i64(ptr, i8, i64, i1)"}


def changed(lines, change):
    """The module's text with the change, and without what only the right code keeps to: that no sum wraps, no match
    falls through and nothing is read before it is set. So changed code does what a processor does."""
    new = [change.edits.get(at, line) for at, line in enumerate(lines)]
    there = [line for line in new if line.startswith("declare")]
    new += [line for name, line in DECLARED.items() if not any(name in one for one in there)]
    return "\n".join(loosened(line) if line.startswith(("  ", "define")) else line for line in new) + "\n"


def loosened(line):
    line = re.sub(r" (nuw|nsw|inbounds|noundef)\b|, !(noundef|range) !\d+", "", line)
    if line == "  unreachable":
        return "  call void @llvm.trap()\n" + line
    room = re.match(r"  (\S+) = alloca (?:\[(\d+) x i8\]|\w+), align (\d+)$", line)
    if not room:
        return line
    octets = room.group(2) or room.group(3)
    return line + "\n  call void @llvm.memset.p0.i64(ptr %s, i8 %d, i64 %s, i1 false)" % (room.group(1), UNSET, octets)


def all_changes(lines):
    """Every change, in the module's order."""
    functions = dict(function_lines(lines))
    return [change for name in reached(lines, functions) for change in changes_of(name, lines, functions[name])]


def function_lines(lines):
    for at, line in enumerate(lines):
        if line.startswith("define"):
            start, name = at + 1, re.search(r'@"?([^"(]+)', line).group(1)
        if line == "}":
            yield name, range(start, at)


def reached(lines, functions):
    """The library's functions that the exports lead to. The name of an export has no crate."""
    due, seen = [name for name in functions if "::" not in name], set()
    while due:
        name = due.pop()
        if name not in seen:
            seen.add(name)
            due += [callee for at in functions[name] for callee in re.findall(r'call .*@"([^"]+)"', lines[at])]
    return [name for name in functions if name in seen and "::" in name]


def changes_of(function, lines, numbers):
    counts = {}
    for at in of_source(lines, numbers):
        for find in (comparisons, branches, matches, arithmetic, indices, parts, stores, arguments):
            for kind, choices in find(lines, at, lines[at]):
                counts[kind] = counts.get(kind, 0) + 1
                yield from (Change(function, kind, counts[kind], what, edits) for what, edits in choices)


def of_source(lines, numbers):
    """All but the loop that the compiler makes for an array."""
    loop = False
    for at in numbers:
        if re.match(r"[\w.]+:", lines[at]):
            loop = lines[at].startswith("repeat.")
        if not loop and "label %repeat." not in lines[at + 1]:
            yield at


# ---- The places of a line. For each its kind, and its changes: what they say, and their edits


def stepped(at, line, span, step):
    """The number at `span` of the line, a step on."""
    old = line[slice(*span)]
    new = str(int(old) + step)
    return "%s to %s" % (old, new), {at: line[:span[0]] + new + line[span[1]:]}


def constants(at, line, found, groups, steps):
    """Those of the groups that are constants. None goes below 0."""
    for group in groups:
        if not found.group(group).startswith("%"):
            yield "constant", [stepped(at, line, found.span(group), step) for step in steps
                               if (found.group(group), step) != ("0", -1)]


def truth(at, line, old):
    new = "false" if old == "true" else "true"
    return "%s to %s" % (old, new), {at: line.replace("i1 " + old, "i1 " + new)}


def comparisons(lines, at, line):
    found = re.match(r"  \S+ = icmp (\w+) i\d+ %s, %s$" % (VALUE, VALUE), line)
    if found:
        old, new = found.group(1), NEIGHBOURS[found.group(1)]
        sign, changed_sign = SIGNS[old[-2:]], SIGNS[new[-2:]]
        yield "comparison", [("%s to %s" % (sign, changed_sign), {at: line.replace("icmp " + old, "icmp " + new)})]
        yield from constants(at, line, found, (2,), LEFT_STEPS[sign])
        yield from constants(at, line, found, (3,), [-step for step in LEFT_STEPS[sign]])


def branches(lines, at, line):
    """A branch on `==` or `!=` is left alone: to exchange its ends is to change the comparison."""
    found = re.match(r"  br i1 (\S+), label (\S+), label (\S+)$", line)
    if found and not re.match(r"  \S+ = icmp (eq|ne) ", lines[at - 5]):
        yield "branch", [("ends exchanged", {at: "  br i1 %s, label %s, label %s" % found.group(1, 3, 2)})]
    if re.match(r"  \S+ = xor i1 \S+, true$", line):
        yield "branch", [("not left out", {at: line.replace("true", "false")})]


def matches(lines, at, line):
    """Each arm of a match, exchanged with the next. The last may be the line's own, for all other values."""
    found = re.match(r"  switch i\d+ \S+, label (%[\w.]+) \[$", line)
    arms = list(range(at + 1, lines.index("  ]", at))) if found else []
    if found and not found.group(1).startswith("%noarm"):
        arms.append(at)
    for one, other in zip(arms, arms[1:]):
        mine, theirs = (re.search(r"label (%[\w.]+)", lines[arm]).group(0) for arm in (one, other))
        if mine != theirs:
            edits = {one: lines[one].replace(mine, theirs), other: lines[other].replace(theirs, mine)}
            yield "match", [("arms %s and %s exchanged" % (value(lines[one]), value(lines[other])), edits)]


def value(arm):
    found = re.match(r"    i\d+ (\d+),", arm)
    return found.group(1) if found else "_"


def arithmetic(lines, at, line):
    """Not an element's distance in octets, which is the compiler's, nor a part's length, which goes with its start."""
    found = re.match(r"  \S+ = (add|sub|mul|udiv|urem)(?: nuw)? i64 %s, %s$" % (VALUE, VALUE), line)
    distance = line.endswith(", 8") and "getelementptr inbounds" in " ".join(lines[at + 1:at + 5])
    if found and not distance and not part(lines, at - 4):
        yield from constants(at, line, found, (2, 3), (1,))


def indices(lines, at, line):
    """Of the elements' size: that of the next number that is loaded or stored."""
    found = re.match(r"  \S+ = getelementptr inbounds nuw i8, ptr \S+, i64 (\d+)$", line)
    if found:
        size = int(re.search(r"(?:load|store) i(8|64)\b", " ".join(lines[at + 1:at + 8])).group(1)) // 8
        index = int(found.group(1)) // size
        yield "constant", [("[%d] to [%d]" % (index, index + 1), stepped(at, line, found.span(1), size)[1])]


def part(lines, at):
    """Where a part of a slice is made: its start, of line `at`, and its length, four lines on."""
    start = re.match(r"  \S+ = getelementptr i8, ptr %r\d+, i64 (\d+)$", lines[at])
    length = re.match(r"  \S+ = sub nuw i64 %r\d+, (\d+)$", lines[at + 4])
    return start and length and re.match(r"  \S+ = load ptr, ptr %r\d+,", lines[at - 1]) and (start, length)


def parts(lines, at, line):
    """Start and length are changed together."""
    found = part(lines, at)
    if found:
        start, length = found
        first = int(length.group(1))
        edits = stepped(at, line, start.span(1), int(start.group(1)) // first)[1]
        edits.update(stepped(at + 4, lines[at + 4], length.span(1), 1)[1])
        yield "constant", [("[%d..] to [%d..]" % (first, first + 1), edits)]


def stores(lines, at, line):
    found = re.match(r"  store i(8|64) (-?\d+), ptr", line)
    if found and found.group(1) == "64":
        yield from constants(at, line, found, (2,), (1, -1))
    elif found and int(found.group(2)) >= FIRST_STORED_REFUSAL:
        yield "refusal", [stepped(at, line, found.span(2), 1)]
    elif found:
        yield "variant", [stepped(at, line, found.span(2), -1 if int(found.group(2)) % 2 else 1)]
    found = re.match(r"  \S+ = zext i1 (true|false) to i8$", line)
    if found:
        yield "constant", [truth(at, line, found.group(1))]


def arguments(lines, at, line):
    found = re.match(r'.*call \w+ @"[^"]+"\(', line)
    for word in re.finditer(r"\bi(1|8|64) (-?\d+|true|false)\b", line) if found else ():
        if word.group(1) == "1":
            yield "constant", [truth(at, line, word.group(2))]
        else:
            yield "refusal" if word.group(1) == "8" else "constant", [stepped(at, line, word.span(2), 1)]
