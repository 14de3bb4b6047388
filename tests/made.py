"""Files that a script makes: written, or with --check compared with what is there."""
import sys


def put(folder, files):
    for name, data in files.items():
        path = folder / name
        if "--check" in sys.argv:
            if path.read_bytes() != data:
                sys.exit(f"{path} is not what {sys.argv[0]} makes")
        else:
            path.write_bytes(data)
            print(path.name, len(data), "bytes")
