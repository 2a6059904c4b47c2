"""The cases of bench/files about lines and answers: sessions over pipes and at terminals, what is on disk when, and how ksbench ends."""
import array
import fcntl
import os
import pty
import random
import re
import subprocess
import termios

from inputs import random_lines
from kit import LISTS, WAIT, ask, ended, expect, folder, image_of, look, new, run, scripted, started
from programs import ksrun_answers

SESSIONS = 300
FACTORY = bytes.fromhex("010000000000")
NOT_WRITTEN = b"ksbench: standard output cannot be written\n"
NOT_READ = b"ksbench: standard input cannot be read\n"
WORDS = {3: b"unreadable", 4: b"no command", 5: b"malformed", 6: b"beyond", 7: b"absent", 8: b"reserved", 9: b"locked", 10: b"wrong type",
         11: b"in use", 12: b"ring", 13: b"full", 15: b"turned", 20: b"needed"}
# Nothing tells ksbench a position, so the platform stands at zero for it, and no line is refused with 15 (turned: the platform's U, V and W are not all zero).
UNMET = {15}
# Refused with each of the numbers 3 to 13, between lines that are accepted; for 20 something must have been saved (NEEDED).
REFUSED = b"\n".join([b"K" * 121, b"FOO", b"KSD", b"KSD A X 2001", b"KRM A", b"KSD ZERO", b"KSB B", b"KSD A", b"KSD B", b"KLN A PI_BASE", b"KLN A B", b"KEN A",
                      b"KRM B", b"KEN ZERO", b"KLN B A", b"WPA", b"WPA SKS SKS", b"ERR?"] + [b"KSD N%d" % n for n in range(15)] + [b"ERR?", b""])
NEEDED = b"KSD A\nKEN A\nWPA SKS\nKEN ZERO\nKRM A\n"


def refusals():
    told = ksrun_answers(REFUSED)
    expect("these lines are refused with each number", {int(n) for n in re.findall(rb"^E (\d+)$", told + ksrun_answers(NEEDED), re.M)}, set(WORDS) - UNMET)
    at, image = folder()
    expect("refusals in a pipe: nothing is added, nothing saved", (run(image, text=REFUSED), look(at)), ((told, new(image)), {}))
    for line in (b"WPA", b"WPA SKS SKS", b"WPA 1", b"WPA SKS".ljust(121), b"XWPA SKS", b"\tWPA SKS", b"RPA SKS", b"DPA SKS"):
        expect("no save by %r" % line[:20], (run(image, text=b"KSD A\n" + line + b"\n")[1], look(at)), (new(image), {}))


def needed():
    """What the next start needs is not removed, in the run that saved it and in the next one, until a save sets it free."""
    at, image = folder()
    expect("saved in use: not removed", run(image, text=NEEDED + b"ERR?\n"), (b"E 20\n20\n", new(image)))
    kept = held_in(at)
    expect("nor after the next start", (run(image, text=b"KRM A\nKEN ZERO\nKRM A\n"), held_in(at)), ((b"E 11\nE 20\n", b""), kept))
    expect("and that start has it enabled", run(image, text=b"KEN?\n")[0].splitlines()[0], b"A=KSD ")
    expect("saved while it is not in use: removed", (run(image, text=b"KEN ZERO\nWPA SKS\nKRM A\n"), held_in(at)), ((b"", b""), {"image": image_of(b"KSD A\n")}))
    expect("the start after that has it, and not in use", run(image, text=b"KRM A\nWPA SKS\n"), (b"", b""))
    expect("saved without it: gone", held_in(at), {"image": FACTORY})


def lines():
    at, image = folder()
    for size in (119, 120, 121, 300000):
        for end, what in ((b"\n", ""), (b"", ", without LF")):
            for line, due, saves in ((b"ERR?", b"0\n", False), (b"WPA SKS", b"", True)):
                wanted = (due, new(image)) if size <= 120 else (b"E 3\n", new(image))
                got = run(image, text=line.ljust(size) + end), image.exists()
                image.unlink(missing_ok=True)
                expect("%s in a line of %d bytes%s" % (line.decode(), size, what), got, (wanted, saves and size <= 120))
    run(image, text=b"KSD A X 7\nWPA SKS")
    expect("a last line without LF is saved", held_in(at), {"image": image_of(b"KSD A X 7\n")})
    expect("no input", (run(image), image.read_bytes()), ((b"", b""), image_of(b"KSD A X 7\n")))


def lockstep():
    """Each line is sent when the one before is answered, and behind each save the file is read before anything else is done."""
    at, image = folder()
    rounds = [b"KSD A X %d Y -%d\nWPA SKS\n" % (n, n * n % 2001) for n in range(200)]
    wanted = scripted(b"".join(rounds))[1]
    ksbench, found, told = started(image), [], b""
    for lines in rounds:
        told += ask(ksbench, lines + b"ERR?\n")
        found.append(image.read_bytes())
    expect("200 saves in lockstep: each is on disk when the next line is answered", (found, told), (wanted, b"0\n" * len(rounds)))
    expect("and no word of it", ended(ksbench), (b"", new(image)))


# ---- sessions

def session(r):
    lines = list(random_lines(r.random(), r.choice([3, 20, 100, 400])))
    return b"\n".join(lines) + r.choice([b"\n", b"\n", b""])


def held_in(at):
    return {path.name: path.read_bytes() for path in at.iterdir()}


def sessions():
    """One after the other on a file, which is removed now and then: what is answered, what is in the folder then, and what the next start lists."""
    r = random.Random(5)
    at, image = folder()
    saves = without = 0
    for n in range(SESSIONS):
        before, text = held_in(at).get("image"), session(r)
        told, images, lists = scripted(text, b"N" if before is None else b"I " + before.hex().encode())
        after = images[-1] if images else before
        wanted = (told, new(image) if before is None else b""), {} if after is None else {"image": after}, lists, told
        got = run(image, text=text), held_in(at), run(image, text=LISTS)[0], ksrun_answers(text) if before is None else told
        if got != wanted:
            expect("session %d, %r, from %s" % (n, text, before), got, wanted)
        saves, without = saves + len(images), without + (after is None)
        if r.random() < 0.4:
            image.unlink(missing_ok=True)
    expect("%d random sessions, %d saves; %d sessions ended without a file" % (SESSIONS, saves, without), saves > SESSIONS and without > 9, True)


def wait_until_read(pipe, ksbench):
    """Until nothing lies in the pipe, so that each piece is read by itself."""
    left = array.array("i", [1])
    while left[0] and ksbench.poll() is None:
        fcntl.ioctl(pipe, termios.FIONREAD, left)


def pieces():
    text = b"\n".join(random_lines(17, 400))
    told, images, _ = scripted(text)
    for size in (1, 2, 7, 119, 120, 121, 4096):
        at, image = folder()
        with open(at / "answers", "wb") as out:
            ksbench = started(image, stdout=out)
            for start in range(0, len(text), size):
                os.write(ksbench.stdin.fileno(), text[start:start + size])
                wait_until_read(ksbench.stdin.fileno(), ksbench)
            ended(ksbench)
        expect("a session with %d saves in pieces of %d" % (len(images), size), ((at / "answers").read_bytes(), image.read_bytes()), (told, images[-1]))
    at, image = folder()
    text = b"\n".join(random_lines(23, 20000))
    told, images, _ = scripted(text)
    expect("a session with %d saves in one piece" % len(images), (run(image, text=text)[0], image.read_bytes()), (told, images[-1]))


# ---- terminals

def terminal():
    """One that echoes nothing and changes no byte: its two ends."""
    outer, inner = pty.openpty()
    mode = termios.tcgetattr(inner)
    mode[1] &= ~termios.OPOST
    mode[3] &= ~termios.ECHO
    termios.tcsetattr(inner, termios.TCSANOW, mode)
    return outer, inner


def shown_at(outer):
    shown = b""
    while True:
        try:
            shown += os.read(outer, 65536)
        except OSError:
            os.close(outer)
            return shown


def pasted(image, text, **how):
    """All of a text in one piece at a terminal, then Ctrl-D: what the terminal shows, and what goes out elsewhere."""
    outer, inner = terminal()
    ksbench = started(image, **{name: inner if there else subprocess.PIPE for name, there in dict(dict(stdin=True, stdout=True, stderr=True), **how).items()})
    os.close(inner)
    if ksbench.stdin:
        ksbench.stdin.write(text)
        ksbench.stdin.close()
        ksbench.stdin = None
    else:
        os.write(outer, text + b"\x04")
    shown = shown_at(outer)
    return shown, ksbench.stdout and ksbench.stdout.read(), ksbench.stderr and ksbench.stderr.read(), ksbench.wait(WAIT)


def explained(told):
    """Answers with the first words of a reason behind each refusal."""
    return re.sub(rb"^E (\d+)\n", lambda found: b"%s%s: %s\n" % (found[0], found[1], WORDS[int(found[1])]), told, flags=re.M)


def first_words(shown):
    return re.sub(rb"^(\d+: [a-z ]+): .+$", rb"\1", shown, flags=re.M)


def terminals():
    at, image = folder()
    image.write_bytes(FACTORY)
    told = ksrun_answers(REFUSED)
    shown = pasted(image, REFUSED)[0]
    expect("pasted at a terminal: each refusal has its reason behind it", first_words(shown), explained(told))
    expect("a reason in words", re.findall(rb"^11: .*$", shown, re.M), [b"11: in use: it is enabled, or an enabled system hangs on it"])
    kept = folder()[1]
    kept.write_bytes(FACTORY)
    expect("the reason of 20", pasted(kept, NEEDED)[0], b"E 20\n20: needed: it was saved in use, and the next start has it so; WPA SKS once it is out of use frees it\n")
    reasons = b"".join(re.findall(rb"^\d+: .*\n", explained(told), re.M))
    got = pasted(image, REFUSED, stdout=False)
    expect("answers to a pipe: the reasons are at the terminal", (first_words(got[0]),) + got[1:], (reasons, told, None, 0))
    expect("complaints to a pipe: no reasons", pasted(image, REFUSED, stderr=False), (told, None, b"", 0))
    expect("lines from a pipe: no reasons", pasted(image, REFUSED, stdin=False), (told, None, None, 0))
    for seed in range(20):
        few = [line for line in random_lines(seed, 70) if all(32 <= byte < 127 for byte in line)]
        text = b"".join(line + b"\n" for line in few)[:4000]
        text = text[:text.rindex(b"\n") + 1]
        told, images, _ = scripted(text)
        image.write_bytes(FACTORY)
        got = first_words(pasted(image, text)[0]), image.read_bytes()
        expect("random lines pasted at a terminal, %d saves" % len(images), got, (explained(told), (images or [FACTORY])[-1]))


# ---- how it ends

def unwritten(what, **how):
    """No answer can be written: it says so and ends, and what was saved before stays."""
    for text, saved in ((b"ERR?\nKSD A\nWPA SKS\n", False), (b"KSD A\nWPA SKS\nERR?\nKSD B\nWPA SKS\n", True), (b"KSD A\nWPA SKS\nERR?", True)):
        at, image = folder()
        got, after = (run(image, text=text, **how)[1], held_in(at)), {"image": image_of(b"KSD A\n")} if saved else {}
        expect("%s, %s answer" % (what, "a save before the" if saved else "an"), got, (new(image) + NOT_WRITTEN, after))


def unread(what, **how):
    at, image = folder()
    ksbench = started(image, **how)
    expect(what, (ksbench.communicate(timeout=WAIT), ksbench.returncode, look(at)), ((b"", new(image) + NOT_READ), 0, {}))


def ends():
    with open("/dev/full", "wb") as full:
        unwritten("a full device", stdout=full)
    unread("a folder as input", stdin=os.open("/", os.O_RDONLY))
    unread("a closed input", stdin=None, preexec_fn=lambda: os.close(0))
    unwritten("a closed output", stdout=None, preexec_fn=lambda: os.close(1))


def talks():
    for part in (refusals, needed, lines, lockstep, sessions, pieces, terminals, ends):
        part()
