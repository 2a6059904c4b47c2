"""The cases of bench/files about what stands beside the image: its lock, held and left behind, and a .saving file."""
import os
import time

from kit import WAIT, ask, ended, expect, folder, image_of, look, refused, run, started

UNKNOWN = b"whether another ksbench has it cannot be told; if none runs, remove %s.lock"


def locks():
    at, image = folder()
    image.write_bytes(image_of(b"KSD A\n"))
    (at / "link").symlink_to("image")
    first = started(image)
    ask(first, b"ERR?\n")
    has_it = b"another ksbench (process %d) has it" % first.pid
    for what, name, shown in (("by its name", image, image), ("by another spelling", "%s/./image" % at, None), ("by a link", at / "link", image)):
        refused(at, "a second program, " + what, name, has_it, shown)
    (at / "link").unlink()
    expect("the first one goes on", ask(first, b"KSD B\nWPA SKS\nERR?\n"), b"0\n")
    expect("it has saved, and gives the lock back", (ended(first), look(at)["image"][1], len(look(at))), ((b"", b""), image_of(b"KSD A\nKSD B\n"), 1))


def left_behind():
    at, image = folder()
    image.write_bytes(image_of(b"KSD A\n"))
    alone = look(at)
    for waited in (True, False):
        first = started(image)
        ask(first, b"ERR?\n")
        first.kill()
        if waited:
            first.wait(WAIT)
        time.sleep(0.1)
        expect("a killed program's lock is there", sorted(look(at)), ["image", "image.lock"])
        expect("it is taken over, its maker %s" % ("gone" if waited else "not yet waited for"), (run(image, text=b"ERR?\n"), look(at)), ((b"0\n", b""), alone))
        first.communicate()
    for what, mark in (("empty", b""), ("no mark", b"lock"), ("of a process without it", b"%d 0\n" % os.getpid()), ("of no process", b"999999999 3\n")):
        (at / "image.lock").write_bytes(mark)
        expect("a lock left behind, " + what, (run(image, text=b"ERR?\n"), look(at)), ((b"0\n", b""), alone))
    with open(at / "image.lock", "wb", 0) as lock:
        lock.write(b"%d %d\n" % (os.getpid(), lock.fileno()))
        refused(at, "a lock that its maker has open", image, b"another ksbench (process %d) has it" % os.getpid())
    (at / "image.lock").unlink()
    for what, make, remove in (("a pipe", os.mkfifo, os.unlink), ("a folder", os.mkdir, os.rmdir)):
        make(at / "image.lock")
        refused(at, what + " in the place of its lock", image, UNKNOWN % bytes(image))
        remove(at / "image.lock")
    (at / "image.saving").write_bytes(b"half an im")
    ksbench = started(image)
    expect("a .saving file left behind is gone at the first answer", (ask(ksbench, b"ERR?\n"), sorted(look(at))), (b"0\n", ["image", "image.lock"]))
    expect("and the image is as it was", (ended(ksbench), look(at)), ((b"", b""), alone))


def holders(image, count):
    """So many programs start at once on a file: how many answer, while all others have ended or answer too."""
    programs = [started(image) for _ in range(count)]
    for ksbench in programs:
        ksbench.stdin.write(b"ERR?\n")
        try:
            ksbench.stdin.flush()
        except BrokenPipeError:
            pass
    got = sum(ksbench.stdout.read(2) == b"0\n" for ksbench in programs)
    for ksbench in programs:
        ksbench.communicate(timeout=WAIT)
    return got


def crowd():
    at, image = folder()
    image.write_bytes(image_of(b""))
    for what, mark in (("no lock", None), ("a lock left behind", b"999999999 3\n")):
        found = set()
        for _ in range(10):
            if mark:
                (at / "image.lock").write_bytes(mark)
            found.add(holders(image, 3))
        expect("three programs at once, %s, 10 times: never have two the file" % what, (max(found), sorted(look(at))), (1, ["image"]))
