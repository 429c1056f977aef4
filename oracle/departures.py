"""The departures of the Rust as docs/DIFFERENCES.md tells them: a name, and for each line of its
script the answers by the rules, by the Rust alone with checked sums, and with wrapping ones."""
import re
from pathlib import Path

TOLD = Path(__file__).resolve().parent.parent / "docs/DIFFERENCES.md"
HEADER = "| line | rules | Rust, checked | Rust, wrapping |"


def departures():
    found = {}
    for section in re.split(r"^#+ ", TOLD.read_text(), flags=re.M):
        name, _, body = section.partition("\n")
        if HEADER not in body:
            continue
        rows = body[body.index(HEADER) :].split("\n\n")[0].splitlines()[2:]
        cells = [[cell.strip(" `") for cell in row.strip("|").split("|")] for row in rows]
        lines, rules, checked, wrapping = (list(column) for column in zip(*cells, strict=True))
        found[name] = {"script": lines, "rules": rules, "checked": checked, "wrapping": wrapping}
    return found


def script(departure):
    return "".join(line + "\n" for line in departure["script"]).encode()
