"""The section of README that lists what to read: each line `N PATH ..` says how many lines the file has, comments, imports and blank lines
left out. Of code the heads of public functions count, with their contracts; the functions of a trait that is implemented are public."""
import re

from defined import REPO

SECTION = "## What to read to believe it"


def heads(text):
    """The public functions of a source file, without their bodies."""
    text = re.sub(r"^impl\b.* for (?s:.)*?^\}", lambda m: m.group().replace("\n    fn ", "\n    pub fn "), text, flags=re.M)
    return "\n".join(m.group(0) for m in re.finditer(r'^( *)pub (?:extern "C" )?fn .*?(?=^\1\{)', text, re.M | re.S))


def lines_of(path):
    text = (REPO / path).read_text()
    if path.endswith(".rt"):
        text = heads(text)
    text = re.sub(r"^use [^{\n]*\{[^}]*\}$", "", text, flags=re.M)
    return sum(1 for line in text.split("\n") if line.strip() and not line.strip().startswith(("--", "//", "use ")))


def wrong_counts():
    """What is said wrongly, and the sum of what is said."""
    readme = (REPO / "README.md").read_text()
    section = readme.split(SECTION)[1].split("\n## ")[0]
    said = re.findall(r"^ +(\d+)  (\S+\.(?:antt|rt))", section, re.M)
    wrong = [f"README.md: {path} has {lines_of(path)} lines, not {n}" for n, path in said if lines_of(path) != int(n)]
    total = sum(int(n) for n, _ in said)
    stated = re.search(r"(\d[\d,]*) lines in all", section)
    if not stated or int(stated.group(1).replace(",", "")) != total:
        wrong.append(f"README.md: {total} lines in all")
    return wrong
