"""list_errors.py LIST: what the listing program does where its input cannot be read to its end, or its output cannot be written."""
import os
import pathlib
import resource
import signal
import socket
import subprocess
import sys
import tempfile

EXAMPLES = pathlib.Path(__file__).resolve().parent.parent / "examples"
PLAN = (EXAMPLES / "case-a.plan").read_bytes()
LISTING = (EXAMPLES / "case-a.listing").read_bytes()
UNREAD = b"list: standard input could not be read\n"
UNWRITTEN = b"list: standard output could not be written\n"

failed = 0


def check(name, got, want):
    global failed
    if got != want:
        print(f"list_errors: {name}: {got}, not {want}", file=sys.stderr)
        failed += 1


def run(name, printed=b"", said=b"", status=0, given=b"", **how):
    """What the program prints and says and how it ends; `given` is its input unless `how` names another."""
    how = {"stdout": subprocess.PIPE, "stderr": subprocess.PIPE} | ({} if "stdin" in how else {"input": given}) | how
    ran = subprocess.run([sys.argv[1]], timeout=60, **how)
    check(name, (ran.stdout or b"", ran.stderr or b"", ran.returncode), (printed, said, status))


def closed(*descriptors):
    return lambda: [os.close(d) for d in descriptors]


def unended(name, data, **want):
    """An input of this data, which does not end: a read that would wait for more fails."""
    ours, theirs = socket.socketpair()
    ours.settimeout(60)
    ours.sendall(data)
    theirs.setblocking(False)
    run(name, stdin=theirs, **want)
    ours.close()


def inputs(scratch):
    run("a directory", said=UNREAD, stdin=os.open("/", os.O_RDONLY))
    run("a closed input", said=UNREAD, stdin=None, preexec_fn=closed(0))
    run("an input open for writing", said=UNREAD, stdin=os.open(scratch, os.O_WRONLY))
    unended("nothing, and then a failing read", b"", said=UNREAD)
    unended("a part of a plan, and then a failing read", PLAN[:50], said=UNREAD)
    unended("a whole plan, and then a failing read", PLAN, said=UNREAD)
    unended("65,536 bytes, and then a failing read", bytes(65536), said=UNREAD)
    unended("too many bytes, and then a failing read", bytes(65537), printed=b"refused 8\n")
    run("a part of a plan", printed=b"refused 1\n", given=PLAN[:50])
    run("a plan", printed=LISTING, given=PLAN)


def pieces():
    """A plan that comes byte by byte."""
    program = subprocess.Popen([sys.argv[1]], stdin=subprocess.PIPE, stdout=subprocess.PIPE, bufsize=0)
    for byte in PLAN:
        program.stdin.write(bytes([byte]))
    check("a plan byte by byte", program.communicate(timeout=60)[0], LISTING)


def gone():
    """An output whose reader went away."""
    reader, writer = os.pipe()
    os.close(reader)
    return writer


def ignoring_the_signal():
    signal.signal(signal.SIGPIPE, signal.SIG_IGN)


def at_most_ten_bytes():
    resource.setrlimit(resource.RLIMIT_FSIZE, (10, 10))
    signal.signal(signal.SIGXFSZ, signal.SIG_IGN)


def outputs(scratch):
    run("a closed output", given=PLAN, said=UNWRITTEN, stdout=None, preexec_fn=closed(1))
    run("a refusal to a closed output", said=UNWRITTEN, stdout=None, preexec_fn=closed(1))
    run("a full device", given=PLAN, said=UNWRITTEN, stdout=os.open("/dev/full", os.O_WRONLY))
    run("a file with room for a part", given=PLAN, said=UNWRITTEN, stdout=os.open(scratch, os.O_WRONLY), preexec_fn=at_most_ten_bytes)
    check("the part", pathlib.Path(scratch).read_bytes(), LISTING[:10])
    # A program in Rattle starts with the signal SIGPIPE ignored, whatever it was.
    run("a reader gone", given=PLAN, said=UNWRITTEN, stdout=gone())
    run("a reader gone, the signal ignored", given=PLAN, said=UNWRITTEN, stdout=gone(), preexec_fn=ignoring_the_signal)
    run("input and output closed", said=UNREAD, stdin=None, stdout=None, preexec_fn=closed(0, 1))
    run("all closed", stdin=None, stdout=None, stderr=None, preexec_fn=closed(0, 1, 2))


with tempfile.NamedTemporaryFile() as scratch:
    inputs(scratch.name)
    pieces()
    outputs(scratch.name)
sys.exit(1 if failed else 0)
