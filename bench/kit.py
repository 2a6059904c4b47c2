"""What the cases of bench/files are made of: folders of their own, runs of ksbench, and what ksscript has for the same lines."""
import os
import pathlib
import select
import shutil
import subprocess
import sys
import tempfile

from programs import answers, ksbench, ksscript

WAIT = 20
LISTS = b"KLS?\nKLN?\nKEN?\nKLT?\n"
cases = []


def expect(what, got, wanted):
    if got != wanted:
        if isinstance(got, bytes):
            at = next((i for i, (a, b) in enumerate(zip(got, wanted)) if a != b), min(len(got), len(wanted)))
            got, wanted = "at byte %d %r" % (at, got[at:at + 200]), "%r" % wanted[at:at + 200]
        sys.exit("WRONG  %s: %s, expected %s" % (what, got, wanted))
    cases.append(what)
    print("ok  " + what, flush=True)


# ---- folders

def folder():
    """A fresh one under the current folder, into which everyone may look, and an image's path in it."""
    at = pathlib.Path(tempfile.mkdtemp(dir=os.getcwd()))
    at.chmod(0o755)
    return at, at / "image"


def look(at):
    """All that is in a folder: kinds and modes, and what files and links hold."""
    def held(path):
        return os.readlink(path) if path.is_symlink() else path.read_bytes() if path.is_file() and os.access(path, os.R_OK) else b""
    return {str(path.relative_to(at)): (oct(path.lstat().st_mode), held(path)) for path in at.rglob("*")}


# ---- runs

def program():
    """ksbench, copied to where everyone may run it."""
    copy = pathlib.Path("ksbench")
    if not copy.exists():
        shutil.copy(ksbench()[0], copy)
        copy.chmod(0o755)
    return str(copy.resolve())


def started(*names, **how):
    """ksbench with these arguments, over pipes where nothing else is said."""
    how = dict(dict(stdin=subprocess.PIPE, stdout=subprocess.PIPE, stderr=subprocess.PIPE), **how)
    return subprocess.Popen([program()] + [str(name) for name in names], **how)


def ended(ksbench, text=b""):
    """What it prints to the end, on both sides. The exit status is 0, whatever comes."""
    printed = ksbench.communicate(text, WAIT)
    if ksbench.returncode != 0:
        sys.exit("WRONG  %s ended with status %d" % (ksbench.args, ksbench.returncode))
    return printed


def run(*names, text=b"", **how):
    return ended(started(*names, **how), text)


def ask(ksbench, text):
    """Sends lines of which only the last has an answer, of one line, and gets it."""
    os.write(ksbench.stdin.fileno(), text)
    got = b""
    while not got.endswith(b"\n"):
        if not select.select([ksbench.stdout], [], [], WAIT)[0]:
            sys.exit("WRONG  no answer to %r" % text)
        part = os.read(ksbench.stdout.fileno(), 65536)
        if not part:
            sys.exit("WRONG  it ended and did not answer %r: %r" % (text, ksbench.stderr.read()))
        got += part
    return got


def said(path, *complaints):
    return b"".join(b"ksbench: %s: %s\n" % (os.fsencode(path), complaint) for complaint in complaints)


def new(path):
    return said(path, b"no such file yet: starting at the factory")


def refused(at, what, name, complaint, shown=None, **how):
    """It does not start: it says why, answers nothing, and touches nothing."""
    before = look(at)
    expect("no start: " + what, (run(name, text=b"KSD A\nWPA SKS\nERR?\n", **how), look(at)), ((b"", said(shown or name, complaint)), before))


# ---- what is expected

def saved(line, reply):
    return line.upper().split() == [b"WPA", b"SKS"] and reply == b""


def scripted(text, start=b"N"):
    """By ksscript, from a start: the answers to a text as ksrun prints them, the image after each accepted save, and what a start from the last one lists."""
    lines = text.split(b"\n")
    lines = lines if lines[-1] else lines[:-1]
    sent = [b"L %s 4096" % (line.hex().encode() or b"-") for line in lines]
    asked = [directive for line in sent for directive in (line, b"W 4096")] + [b"R"] + [b"L %s 4096" % line.hex().encode() for line in LISTS.split()]
    replies = [reply.split(b" ") for reply in answers(ksscript(), b"\n".join([start] + asked)).split(b"\n")[1:-1]]
    told = [bytes.fromhex(reply.decode()) if number == b"0" else b"E %s\n" % number for number, reply in replies]
    own, images = told[0:2 * len(lines):2], told[1:2 * len(lines):2]
    return b"".join(own), [image for line, reply, image in zip(lines, own, images) if saved(line, reply)], b"".join(told[2 * len(lines) + 1:])


def image_of(text):
    """The image that is saved after some lines."""
    return scripted(text + b"WPA SKS\n")[1][-1]
