"""python3 tools/port/respell.py [REPOSITORY]

Spells the definitions and lemmas of the repository's own specs/ and proofs/ as the library spells its own: words in snake case. It was run
once, right after the kit's port.py; names.tsv has each old name and its new one, first.tsv those that port.py itself had respelled. A
lemma that would have got its definition's name ends in _lem. A name that a file imports from the kit's library stays there."""
import os
import re
import sys

HERE = os.path.dirname(os.path.abspath(__file__))
TOKEN = re.compile(r'[^\s(){}.;,@"«»]+')
USE = re.compile(r"\buse ([^\s;{]+)\.\{([^}]*)\}")


def rows(name):
    with open(os.path.join(HERE, name), encoding="utf-8") as f:
        return dict(line.rstrip("\n").split("\t") for line in f)


def sources(root):
    for folder, dirs, files in os.walk(os.path.join(root, "crates")):
        dirs[:] = sorted(d for d in dirs if d not in ("out", "Made"))
        for f in sorted(files):
            if f.endswith((".rt", ".antt")) and f != "Tie.antt":
                yield os.path.join(folder, f)


def pages(root):
    for folder, dirs, files in os.walk(root):
        dirs[:] = sorted(d for d in dirs if d not in (".git", "crates", "target", "compare"))
        yield from (os.path.join(folder, f) for f in sorted(files) if f.endswith(".md"))


def turn(text, names, comment):
    """Code whole; of a comment what stands in backticks, and words that no English has."""
    def new(m):
        return names.get(m[0], m[0])

    lines = []
    for line in text.split("\n"):
        at = line.find(comment)
        code, said = (line, "") if at < 0 else (line[:at], line[at:])
        said = re.sub(r"`([^`]*)`", lambda m: "`" + TOKEN.sub(new, m[1]) + "`", said)
        said = TOKEN.sub(lambda m: new(m) if re.search("[a-z][A-Z]", m[0]) else m[0], said)
        lines.append(TOKEN.sub(new, code) + said)
    return "\n".join(lines)


def rewrite(path, change):
    with open(path, encoding="utf-8") as f:
        text = f.read()
    changed = change(text)
    if changed != text:
        with open(path, "w", encoding="utf-8") as f:
            f.write(changed)


def main(root):
    names, first = rows("names.tsv"), rows("first.tsv")
    crates = set(os.listdir(os.path.join(root, "crates")))

    def imported(text):
        found = set()
        for m in USE.finditer(text):
            steps = m[1].split(".")
            if not (steps[0] == "Rattle" and len(steps) > 1 and steps[1] in crates):
                found |= {x.strip().split(" ")[-1] for x in m[2].split(",")}
        return found

    def source(path):
        def change(text):
            kept = imported(text)
            return turn(text, {a: b for a, b in names.items() if a not in kept}, "//" if path.endswith(".rt") else "--")
        return change

    both = {**first, **names}
    for path in list(sources(root)):
        rewrite(path, source(path))
    for path in list(pages(root)):
        rewrite(path, lambda t: re.sub(r"`([^`\n]*)`", lambda m: "`" + TOKEN.sub(lambda k: both.get(k[0], k[0]), m[1]) + "`", t))


main(os.path.abspath(sys.argv[1] if len(sys.argv) > 1 else "."))
