"""python3 tools/trace

Checks that what docs/TRACE.md names is there: every path, name, function, crate, target of the Makefile and decision; that it goes rule by
rule of docs/SPECIFICATION.md, and that only rules that exist are cited (rules.py); and the line counts of README's list of what to read
(believe.py). In a table the last column and the head are checked, and all that stands between tables.

    `PATH` `name`, `name`           each is defined in the file; so are names further on, up to the next file
    `name` of `PATH`                likewise
    `name` in `PATH`, `PATH`        it is used in each; after the word contract, defined there
    `name` of `crate::function`     a parameter of the function, or a clause of its contract; a method is `crate::Type::method`
    `name` in the contract of `crate::function`
                                    it is used there
    `name` of `crate`               a public function of the crate
    the crates `a` and `b`          also: the program `a`
    the Makefile's `a`, `make a`    a target

A path is under crates/ unless it starts at the top of the repository. Other code, which has a space or a bracket, is not looked at."""
import re
import sys

from believe import wrong_counts
from defined import REPO, crates, decisions, defines, is_source, names_in_head, signature, targets, uses, uses_in_head
from rules import TRACE, rules, wrong_rules

TOP = {".ci", "compare", "crates", "docs", "examples", "include", "tests", "tools"}
WORDS = {"ensures", "requires", "u16", "src", "specs", "proofs", "must-fail"}  # of the language, and of a crate's folders

# Between the names of a list, and between a list and what it belongs to.
LIST = {" ", ", ", ": ", " and ", ", and ", " to "}
LINK = re.compile(r",?(?: \w+)? (in|of)(?: (?:the contracts?|that) of)? ")


def path_of(word):
    """The path that a word in backquotes stands for, or None."""
    if not re.fullmatch(r"[\w.-]+(/[\w.-]+)*/?", word):
        return None
    first = word.split("/")[0]
    if first in TOP or (REPO / word).exists():
        return REPO / word
    return REPO / "crates" / word if "/" in word or re.search(r"\.\w+$", word) else None


class Word:
    def __init__(self, text, gap, line):
        self.text, self.gap, self.line = text, gap, line  # gap: what stands between the word before and this one
        self.path = path_of(text)
        self.is_function = re.fullmatch(r"\w+(::\w+)+", text) is not None
        self.is_name = not self.path and not self.is_function and re.fullmatch(r"[^\s&\[\]();]+", text) is not None

    def kind(self):
        return "path" if self.path else "function" if self.is_function else "name" if self.is_name else "code"


class Passage:
    """A cell of a table, or a paragraph."""

    def __init__(self, text, line, file=None):
        self.text, self.line, self.file, self.words = text, line, file, []
        end = 0
        for found in re.finditer("`([^`]+)`", text):
            gap = text[end:found.start()].replace("\n", " ")
            self.words.append(Word(found.group(1), gap, self.line_at(found.start())))
            end = found.end()

    def line_at(self, place):
        return self.line + self.text.count("\n", 0, place)

    def first_of_list(self, i):
        """Where the list that word i is in begins."""
        while i > 0 and self.words[i].gap in LIST and self.words[i].kind() == self.words[i - 1].kind():
            i -= 1
        return i

    def past_list(self, i):
        end = i + 1
        while end < len(self.words) and self.words[end].gap in LIST and self.words[end].kind() == self.words[i].kind():
            end += 1
        return end

    def before(self, i):
        """The last source file before word i."""
        files = [word.path for word in self.words[:i] if word.path]
        return files[-1] if files else self.file

    def owners(self, i):
        """What name i belongs to: words and paths, and whether it need only be used there."""
        first, end = self.first_of_list(i), self.past_list(i)
        attached = first > 0 and self.words[first - 1].path and self.words[first].gap == " "
        link = None if attached or end == len(self.words) else LINK.fullmatch(self.words[end].gap)
        if not link:
            return [self.before(i)], False
        if self.words[end].is_name and self.words[end].text not in crates():
            return self.owners(end)
        contract = re.search(r"\bcontracts? of $", self.words[first].gap)
        owners = [word.path or word.text for word in self.words[end:self.past_list(end)]]
        return owners, link.group(1) == "in" and not contract

    def wrong_name(self, i):
        """What is wrong with name i, or None."""
        name, gap = self.words[i].text, self.words[self.first_of_list(i)].gap
        if name in WORDS:
            return None
        if gap.endswith("the Makefile's "):
            return None if name in targets() else "is no target of the Makefile"
        if re.search(r"\b(crates?|program) $", gap):
            return None if name in crates() else "is no crate"
        if name in crates() and LINK.fullmatch(gap):
            return None
        owners, used = self.owners(i)
        wrongs = (wrong_at(owner, name, used) for owner in owners)
        return next((wrong for wrong in wrongs if wrong), None)

    def wrong_word(self, i):
        word = self.words[i]
        if word.path:
            return None if word.path.exists() else "does not exist"
        if word.is_function:
            return None if signature(word.text) else "is no public function"
        if word.is_name:
            return self.wrong_name(i)
        made = re.fullmatch(r"make (\S+)", word.text)
        return "is no target of the Makefile" if made and made.group(1) not in targets() else None

    def wrongs(self):
        """Each dangling word: its line, itself, and what is wrong with it."""
        for i, word in enumerate(self.words):
            wrong = self.wrong_word(i)
            if wrong:
                yield word.line, f"`{word.text}` {wrong}"
        for found in re.finditer(r"\bdecisions? (\d+(?:(?:, | and )\d+)*)", self.text):
            for number in re.findall(r"\d+", found.group(1)):
                if number not in decisions():
                    yield self.line_at(found.start()), f"decision {number} is not in docs/DECISIONS.md"
        for found in re.finditer(r"(?<![`\w/.-])docs/[\w.-]*\w", self.text):
            if not (REPO / found.group()).is_file():
                yield self.line_at(found.start()), f"{found.group()} does not exist"


def belongs(owner, name, used):
    """Whether a name is of a function or of a crate."""
    if "::" not in owner:
        return signature(f"{owner}::{name}")
    return (uses_in_head if used else names_in_head)(owner, name)


def wrong_at(owner, name, used):
    """Why a name is not to be found where it belongs: in a file, in a function's head, or in a crate."""
    if owner is None:
        return "stands behind no file"
    if isinstance(owner, str):
        return None if belongs(owner, name, used) else f"is not {'in the contract of' if used else 'of'} {owner}"
    if not owner.is_file():
        return f"belongs to {owner.relative_to(REPO)}, which is no file"
    if not is_source(owner):
        return f"belongs to {owner.relative_to(REPO)}, which defines nothing"
    if not (uses if used else defines)(owner, name):
        return f"is not {'used' if used else 'defined'} in {owner.relative_to(REPO)}"
    return None


def passages(lines):
    """What is to be checked, in order. A file named in the head of a table is where names of its rows are that stand behind no other."""
    paragraph, in_table, file = [], False, None
    for number, line in enumerate(lines + [""], 1):
        if line.startswith("|"):
            cell = Passage(line.rstrip("|").rsplit(" | ", 1)[-1], number, file)
            if not in_table:
                in_table, file = True, next((word.path for word in cell.words if word.path), None)
            yield cell
            continue
        in_table, file = False, None
        if line.strip():
            paragraph.append(line)
        elif paragraph:
            yield Passage("\n".join(paragraph), number - len(paragraph))
            paragraph = []


def main():
    checked = list(passages((REPO / TRACE).read_text().splitlines()))
    dangling = [f"{TRACE}:{line}: {wrong}" for passage in checked for line, wrong in passage.wrongs()]
    wrongs = [*dangling, *wrong_rules(), *wrong_counts()]
    for wrong in wrongs:
        print(wrong, file=sys.stderr)
    if wrongs:
        sys.exit(1)
    words = [word for passage in checked for word in passage.words]
    paths, names = sum(word.kind() == "path" for word in words), sum(word.is_name for word in words)
    print(f"{TRACE}: {len(rules())} rules, {paths} paths and {names} names, all there")


main()
