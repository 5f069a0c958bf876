"""What came of the changes, as docs/MUTATIONS.md has it."""
import re
from collections import Counter

# A change was noticed with few messages, or only with as many as tests/run has; or the page says why no answer differs;
# or it was missed.
FEW, FULL, EQUAL, MISSED = "few", "full", "equal", "missed"
ENOUGH = 95  # of a hundred changes that alter an answer


def name(change):
    """A change as the page has it: its function, and which one of that function's."""
    return change.function, "%s %d: %s" % (change.kind, change.number, change.what)


def listed(page):
    """The names of the changes that the page says alter no answer."""
    part = page.split("\n## No answer differs\n")[1].split("\n## ")[0]
    items = re.findall(r"^- (`.*)$", part.replace("\n  ", " "), re.MULTILINE)
    words = (re.findall(r"`([^`]+)`", item) for item in items)
    return {(function, change) for function, *changes in words for change in changes}


def table(title, results, key):
    """A row for each value of the key, and one for all."""
    lines = ["| %s | Changes | No answer differs | Noticed with few messages | Only in full | Missed |" % title,
             "|---|--:|--:|--:|--:|--:|"]
    for row in sorted({key(change) for change in results}) + ["all"]:
        came = Counter(came for change, came in results.items() if row in (key(change), "all"))
        numbers = [sum(came.values())] + [came[kind] for kind in (EQUAL, FEW, FULL, MISSED)]
        lines.append("| %s | %s |" % (row, " | ".join(map(str, numbers))))
    return "\n".join(lines)


def share(results, *kinds):
    """How many of a hundred changes that alter an answer came to this."""
    altering = [came for came in results.values() if came != EQUAL]
    return 100 * sum(came in kinds for came in altering) / max(1, len(altering))


def report(noticed, page, whole):
    """Prints what came of changes, each with FEW, FULL or nothing; whether enough of them were noticed. `whole`: they
    are all that there are."""
    equal = listed(page)
    by_name = {name(change): came for change, came in noticed}
    came_of = {of: came or (EQUAL if of in equal else MISSED) for of, came in by_name.items()}
    print()
    print(table("Kind", came_of, lambda of: of[1].split()[0]) + "\n")
    print(table("Crate", came_of, lambda of: of[0].split("::")[0]) + "\n")
    for of in sorted(equal):
        if came_of.get(of) in (FEW, FULL):
            print("noticed, though the page says that no answer differs: %s: %s" % of)
        elif of not in came_of and whole:
            print("on the page, and no such change: %s: %s" % of)
    for of, came in came_of.items():
        if came in (FULL, MISSED):
            print("%s: %s: %s" % ("missed" if came == MISSED else "noticed only in full", *of))
    few, full = share(came_of, FEW), share(came_of, FEW, FULL)
    print("mutate: %d changes; of those that alter an answer %.1f percent are noticed with few messages, %.1f in full"
          % (len(came_of), few, full))
    return full >= ENOUGH
