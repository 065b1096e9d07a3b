"""The guide's entry for a refusal: docs/GUIDE.md is the one place that says what each number means."""
import os
import re

import programs

GUIDE = os.path.join(programs.ROOT, "docs", "GUIDE.md")
ENTRY = re.compile(r"^### (\d+): (.*)$")


def entries():
    """Number: (heading, lines)."""
    found, now = {}, None
    with open(GUIDE, encoding="utf-8") as lines:
        for line in lines:
            match = ENTRY.match(line)
            if match:
                now = found[int(match[1])] = (match[2].strip(), [])
            elif line.startswith("#"):
                now = None
            elif now:
                now[1].append(line.rstrip("\n"))
    return found


def entry(no):
    """The entry of a number as text, or None."""
    found = entries().get(no)
    return f"{no}: {found[0]}\n" + "\n".join(found[1]).rstrip() + "\n" if found else None


def headings():
    return "".join(f"{no:3} {heading}\n" for no, (heading, _) in sorted(entries().items()))
