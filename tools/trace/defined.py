"""What a source file defines, what it only uses, and what a function's contract names."""
import functools
import pathlib
import re

REPO = pathlib.Path(__file__).resolve().parent.parent.parent

# Where the name stands in a definition, by the kind of file. Fields, constructors and named clauses are definitions too.
DEFINITIONS = {
    ".antt": (
        r"^ *(?:pub )?(?:record|data) ({}) ",
        r"^ *(?:(?:abbrev|unfoldable) )?pub ({}) :",
        r"^(?:  |abbrev |unfoldable )?({}) :",  # private, or a constructor
    ),
    ".rt": (r"\b(?:fn|struct|enum|const|mod|type) ({})\b", r"^ +(?:pub )?({})(?:: |,$|\()", r"\b(?:ensures|requires) ({}) \{{"),
    ".rs": (r"\b(?:fn|struct|enum|const|trait|mod|type) ({})\b",),
    ".c": (r"^[a-z][^;=]*\b({})\([^;]*$",),
    ".h": (r"\b({})\b",),
    ".py": (r"^(?:def|class) ({})\b", r"^({}) = "),
}

COMMENTS = {".antt": r"--(?: .*)?$", ".rt": r"//.*$", ".rs": r"//.*$", ".c": r"/\*(?s:.)*?\*/", ".h": r"/\*(?s:.)*?\*/", ".py": r"#.*$"}


def is_source(path):
    return path.suffix in DEFINITIONS


@functools.lru_cache(None)
def code(path):
    """The text of a source file without its comments."""
    return re.sub(COMMENTS[path.suffix], "", path.read_text(), flags=re.M)


def defines(path, name):
    return any(re.search(form.format(re.escape(name)), code(path), re.M) for form in DEFINITIONS[path.suffix])


def occurs(name, text):
    return re.search(rf"(?<![\w-]){re.escape(name)}(?![\w-])", text) is not None


def uses(path, name):
    return occurs(name, code(path))


@functools.lru_cache(None)
def crates():
    return {line.split(":")[0].split()[0] for line in (REPO / "crates.txt").read_text().splitlines()}


@functools.lru_cache(None)
def targets():
    """The targets of the Makefile."""
    return set(re.findall(r"^([\w./-]+):", (REPO / "Makefile").read_text(), re.M))


@functools.lru_cache(None)
def decisions():
    return set(re.findall(r"^(\d+)\. ", (REPO / "docs/DECISIONS.md").read_text(), re.M))


def signature(path):
    """The head of a public function, its contract included; None if there is none. It is named crate::function, crate::module::function, or
    crate::Type::method, wherever in the crate the method stands."""
    crate, *modules, name = path.split("::")
    sources = REPO / "crates" / crate / "src"
    if modules and modules[-1][0].isupper():
        blocks = rf"^impl\b[^{{\n]*\b{modules[-1]}\b[^{{\n]*\{{$(?s:.)*?^\}}"
        texts = [block for source in sources.rglob("*.rt") for block in re.findall(blocks, code(source), re.M)]
    else:
        source = sources / ("/".join(modules or ["lib"]) + ".rt")
        texts = [code(source)] if source.is_file() else []
    found = (re.search(rf'^ *pub (?:extern "C" )?fn {name}\b(?s:.)*?^ *\{{$', text, re.M) for text in texts)
    return next((head.group() for head in found if head), None)


def names_in_head(path, name):
    """Whether a function has a parameter or a clause of this name."""
    return re.search(rf"\b(?:{name}:|(?:ensures|requires) {name} \{{)", signature(path) or "") is not None


def uses_in_head(path, name):
    return occurs(name, signature(path) or "")
