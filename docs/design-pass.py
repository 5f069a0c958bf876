#!/usr/bin/env python3
"""design-pass.py [COMMIT]: counts older forms in crates/*/src by what declarations and loops are, and not by names.

Enums with two variants of which one holds nothing or a Refusal; functions of one crate whose text differs in digits alone; `while`
loops that add to or take from a variable of their own test; functions that take a slice by reference to a reference."""
import re
import subprocess
import sys

commit = sys.argv[1] if len(sys.argv) > 1 else "HEAD"
names = subprocess.run(["git", "ls-tree", "-r", "--name-only", commit], capture_output=True, text=True, check=True).stdout.split()
enums, twins, loops, lent = [], [], [], []
for name in names:
    if not re.fullmatch(r"crates/\w+/src/.*\.rt", name):
        continue
    text = subprocess.run(["git", "show", f"{commit}:{name}"], capture_output=True, text=True, check=True).stdout
    text = re.sub(r"//.*", "", text)
    crate = name.split("/")[1]
    for enum, body in re.findall(r"enum (\w+) \{\n(.*?)\n\}", text, re.S):
        variants = re.findall(r"^    (\w+)(.*?),$", body, re.M | re.S)
        variants = [(v, rest) for v, rest in re.findall(r"^    ([A-Z]\w*)((?: \{.*?^    \}|\(.*?\)| \{[^\n]*\})?),", body, re.M | re.S)]
        if len(variants) == 2 and any(rest in ("", "(Refusal)") for _, rest in variants):
            enums.append(f"{crate}::{enum}")
    seen = {}
    for function, rest in re.findall(r"fn (\w+)(.*?\n\}\n)", text, re.S):
        key = re.sub(r"\d+", "#", function + rest)
        seen.setdefault(re.sub(r"0x[0-9a-f_#]+", "#", key), []).append(function)
    twins += [f"{crate}::{'/'.join(group)}" for group in seen.values() if len(group) > 1]
    for test, body in re.findall(r"^( *while .*?) \{\n(.*?)^ *\}\n", text, re.M | re.S):
        for variable in set(re.findall(r"[a-z]\w*", test)) - {"while"}:
            if re.search(rf"\b{variable} (= {variable} [+-]|[+-]=)", body):
                loops.append(f"{crate}: {test.strip()}")
                break
    for function, arguments in re.findall(r"fn (\w+)\(([^{]*?)\)\s*(?:->|requires|ensures|\{)", text):
        if "&&[u" in arguments:
            lent.append(f"{crate}::{function}")
for what, found in (("enums", enums), ("twins", twins), ("loops", loops), ("lent", lent)):
    print(f"{what}: {len(found)}", *sorted(found), sep="\n  ")
