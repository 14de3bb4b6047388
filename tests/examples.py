"""The example plans: the file and the listing of each, made from its annotated hexadecimal. With --check: whether they are that."""
import pathlib
import sys

import made
import reference

HERE = pathlib.Path(__file__).resolve().parent.parent / "examples"


def bytes_of(text):
    """The bytes of hexadecimal lines, in which # begins a comment."""
    return bytes.fromhex("".join(line.split("#")[0] for line in text.splitlines()))


def main():
    files = {}
    for path in sorted(HERE.glob("*.hex")):
        data = bytes_of(path.read_text())
        files[path.stem + ".plan"] = data
        files[path.stem + ".listing"] = reference.listing(data).encode()
    made.put(HERE, files)
    strays = [p.name for p in HERE.iterdir() if p.suffix in (".plan", ".listing") and p.name not in files]
    if strays:
        sys.exit(f"no .hex gives {', '.join(sorted(strays))}")


main()
