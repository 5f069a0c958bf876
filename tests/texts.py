#!/usr/bin/env python3
"""texts.py: whether the header, the README, the Rust crate, the Python wrapper and the example in C say what
docs/FORMAT.md says of refusals, of kinds of records and of what a place asks for: numbers, names and words. And whether
crate and wrapper have the header's room for a prepared book.

Each row of docs/FORMAT.md is a test of each text that is to have it, and so is each row that docs/FORMAT.md lacks.
Prints how they differ. The last line is 'texts: N passed, M failed'."""
import ast
import os
import re
import sys

ROOT = os.path.join(os.path.dirname(os.path.abspath(__file__)), "..")
FORMAT, README, HEADER = "docs/FORMAT.md", "README.md", "include/siphonbard.h"
RUST_REFUSAL, RUST_ANSWER = "bindings/rust/src/refusal.rs", "bindings/rust/src/answer.rs"
RUST_EXPORTS = "bindings/rust/src/ffi.rs"
PYTHON, C_EXAMPLE = "examples/python/siphonbard.py", "examples/c/read_fill.c"

# The columns of the tables. A row is a tuple of these, or of the first of them where a text has no more.
REFUSAL = "Name", "No.", "When", "Place"
KIND = "Name", "Kind", "Second number", "Third number"
ASKED = "Name", "Number"
PREPARED = "Name", "Numbers"


def main():
    results = compared(REFUSAL, FORMAT, page_table(FORMAT, REFUSAL), [
        (README, 4, page_table(README, REFUSAL)),
        (HEADER, 4, header_refusals()),
        (RUST_REFUSAL, 4, rust_refusals()),
        (PYTHON, 4, python_enum("Refusal")),
        (C_EXAMPLE, 3, c_refusals()),
    ])
    results += compared(KIND, FORMAT, page_table(FORMAT, KIND), [
        (README, 4, page_table(README, KIND)),
        (HEADER, 4, header_kinds()),
        (RUST_ANSWER, 2, rust_constants("Answer")),
        (PYTHON, 2, python_enum("Kind")),
    ])
    results += compared(ASKED, FORMAT, format_asked(), [
        (HEADER, 2, header_numbers("ASK")),
        (RUST_ANSWER, 2, rust_constants("Element")),
        (PYTHON, 2, python_enum("Element")),
    ])
    results += compared(PREPARED, HEADER, header_numbers("PREPARED"), [
        (RUST_EXPORTS, 2, assigned(RUST_EXPORTS, r"pub const PREPARED_(\w+): usize = (\w+);")),
        (PYTHON, 2, assigned(PYTHON, r"(?m)^PREPARED_(\w+) = (\w+)")),
        (README, 2, [("MOST", number.replace(",", "")) for number in assigned(README, r"\(([\d,]+) numbers\)")]),
    ])
    failed = [result for result in results if result]
    for result in failed:
        print(result)
    print("texts: %d passed, %d failed" % (len(results) - len(failed), len(failed)))
    sys.exit(1 if failed else 0)


# ---- Comparing ----

def compared(columns, home, home_rows, texts):
    """A result for each row that a text has or is to have: nothing, or how it differs from the home's. A text comes
    with the number of columns that it has."""
    names = [row[0] for row in home_rows]
    if not home_rows or len(set(names)) < len(names):
        return ["%s: there is no table of %s, or a name stands in it twice" % (home, ", ".join(columns))]
    results = []
    for path, width, rows in texts:
        for row in home_rows:
            found = [other for other in rows if other[0] == row[0]]
            results.append(differing(path, columns, row[:width], found))
        results += ["%s: %s is not in %s" % (path, other[0], home) for other in rows if other[0] not in names]
    return results


def differing(path, columns, row, found):
    """How what a text has under the name of a row differs from that row; nothing if it is that row, once."""
    if len(found) != 1 or len(found[0]) != len(row):
        return "%s: %s stands there as %s, not once as %s" % (path, row[0], found, row)
    both = zip(columns, found[0], row)
    wrong = ["%s '%s', not '%s'" % (column, said, right) for column, said, right in both if said != right]
    return "%s: %s has %s" % (path, row[0], "; ".join(wrong)) if wrong else ""


# ---- The pages ----

def page_table(path, columns):
    """The rows of a page's tables that have these columns."""
    rows, names = [], []
    for line in text_of(path).splitlines():
        cells = [cell.strip() for cell in line.split("|")[1:-1]]
        if not cells or set(columns) <= set(cells):
            names = cells
        elif names and not re.fullmatch("[-:| ]+", line):
            row = dict(zip(names, cells))
            rows.append(tuple(row.get(column, "") for column in columns))
    return rows


def format_asked():
    """What rule P5 says of a field, a group and a data."""
    rule = re.search(r"\*\*P5\.([\s\S]*?)\n\n", text_of(FORMAT))
    said = re.findall(r"(\d+)\s+for\s+a\s+(field|group|data)", rule.group(1) if rule else "")
    return [(name.upper(), number) for number, name in said]


# ---- The header, and the example in C ----

def header_numbers(family):
    return re.findall(r"#define SIPHONBARD_%s_(\w+) (\S+)" % family, text_of(HEADER))


def header_refusals():
    """The numbers, and the comment before each."""
    rows = []
    for name, number in header_numbers("REFUSED"):
        define = r"\*/\n#define SIPHONBARD_REFUSED_%s " % name
        comment = re.search(r"/\*((?:(?!\*/)[\s\S])*)" + define, text_of(HEADER))
        words = " ".join(re.sub(r"(?m)^ \*", "", comment.group(1) if comment else "").split())
        said = re.fullmatch(r"When (.*)\. Place: (.*)\.", words)
        rows.append((name, number, *(said.groups() if said else (words, ""))))
    return rows


def header_kinds():
    """The numbers, and the comment behind each: two spaces or more stand between its columns."""
    found = re.findall(r"#define SIPHONBARD_IS_(\w+) (\S+) *(?:/\* (.*) \*/)?", text_of(HEADER))
    return [(name, number, *re.split("  +", words)) for name, number, words in found]


def c_refusals():
    """The strings of the array by the names of their indexes, whose numbers are the header's."""
    numbers = dict(header_numbers("REFUSED"))
    found = re.findall(r'\[SIPHONBARD_REFUSED_(\w+)\] =((?:\s*"[^"]*")+),', text_of(C_EXAMPLE))
    return [(name, numbers.get(name), "".join(re.findall('"([^"]*)"', parts))) for name, parts in found]


# ---- Rust and Python ----

def rust_refusals():
    """The rows of the macro. A backslash at a line's end goes, with the blanks that the next line begins with."""
    return re.findall(r'(\w+) = (\w+),\s*"([^"]*)",\s*"([^"]*)";', re.sub(r"\\\n\s*", "", text_of(RUST_REFUSAL)))


def rust_constants(name):
    """The numbers among the constants of a type."""
    bodies = re.findall(r"(?m)^impl %s \{\n([\s\S]*?)^\}" % name, text_of(RUST_ANSWER))
    return re.findall(r"const (\w+): u64 = (\w+);", "".join(bodies))


def python_enum(name):
    """The members of a class, each a number or a tuple of a number and texts."""
    rows = []
    for part in ast.parse(text_of(PYTHON)).body:
        if isinstance(part, ast.ClassDef) and part.name == name:
            for member in [item for item in part.body if isinstance(item, ast.Assign)]:
                value = ast.literal_eval(member.value)
                number, *texts = value if isinstance(value, tuple) else (value,)
                rows.append((member.targets[0].id, str(number), *texts))
    return rows


def assigned(path, pattern):
    """What the groups of the pattern are, wherever the text has it."""
    return re.findall(pattern, text_of(path))


def text_of(path):
    with open(os.path.join(ROOT, path), encoding="utf-8") as file:
        return file.read()


if __name__ == "__main__":
    main()
