"""The programs that are compared: ksrun, ksscript, ksbench and kssheet of this repository, and the Rust twin of all but ksbench."""
import os
import pathlib
import re
import subprocess
import sys
import tempfile

here = pathlib.Path(__file__).resolve().parent


def built(name):
    path = here.parent / "crates" / name / "out" / name
    if not path.exists():
        sys.exit("no %s: run `rt run < /dev/null` in crates/%s first" % (path, name))
    return [str(path)]


def ksrun():
    return built("ksrun")


def ksscript():
    return built("ksscript")


def ksbench():
    return built("ksbench")


def kssheet():
    return built("kssheet")


def twin(mode="run"):
    """The twin's command: as ksrun (run), as ksscript (script) or as kssheet (sheet)."""
    target = pathlib.Path(tempfile.gettempdir()) / "julomavien-twin"
    env = dict(os.environ, CARGO_TARGET_DIR=str(target))
    subprocess.run(["cargo", "build", "--release", "--quiet", "--offline", "--manifest-path", str(here / "twin/Cargo.toml")], check=True, env=env)
    return [str(target / "release/ksrs"), mode]


def answers(command, text):
    """All that a program prints for an input in one piece."""
    return subprocess.run(command, input=text, stdout=subprocess.PIPE, check=True).stdout


# What ksrun prints behind its last answer; no answer has such a line.
TALLY = re.compile(rb"(?m)^T \d+ \d+\n(?:R \d+ \d+\n)*\Z")


def untallied(said):
    """The answers of ksrun or its twin alone."""
    return TALLY.sub(b"", said)


def ksrun_answers(text):
    """What ksrun answers, without the tally: what ksbench answers too."""
    return untallied(answers(ksrun(), text))
