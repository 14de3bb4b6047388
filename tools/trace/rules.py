"""The rules of docs/SPECIFICATION.md: each has one row in docs/TRACE.md, and each rule that is cited exists.

A citation is the word rule or rules before numbers, as in "rule V4" or "rules D3a to D3h". In these two documents every number of a rule
is one."""
import re

from defined import REPO

SPECIFICATION, TRACE = "docs/SPECIFICATION.md", "docs/TRACE.md"
CITING = ("README.md", "docs/*.md", "crates/*/specs/**/*.antt", "crates/*/src/**/*.rt", "crates/*/proofs/*.antt", "tests/**/*.[pch]*")

RULE = r"\b[A-Z]\d+[a-z]?\b"
CITATION = rf"\brules?[\s/-]+{RULE}(?:(?:, and|,| and| to)[\s/-]+{RULE})*"


def found(path, form):
    return re.findall(form, (REPO / path).read_text(), re.M)


def rules():
    return found(SPECIFICATION, rf"^- \*\*({RULE})\*\* ")


def cited():
    """Each rule that is cited: where, and its number."""
    for path in sorted(path for form in CITING for path in REPO.glob(form)):
        name, text = str(path.relative_to(REPO)), path.read_text()
        for place in re.finditer(RULE if name in (SPECIFICATION, TRACE) else CITATION, text):
            for rule in re.findall(RULE, place.group()):
                yield f"{name}:{text.count(chr(10), 0, place.start()) + 1}", rule


def wrong_rules():
    stated, rows = rules(), found(TRACE, rf"^\| ({RULE}) \|")
    for rule in sorted(set(stated + rows)):
        if stated.count(rule) > 1:
            yield f"{SPECIFICATION}: rule {rule} stands there {stated.count(rule)} times"
        if rule in stated and rows.count(rule) != 1:
            yield f"{TRACE}: rule {rule} has {rows.count(rule)} rows"
    for place, rule in cited():
        if rule not in stated:
            yield f"{place}: there is no rule {rule}"
