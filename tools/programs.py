"""The proved programs: built where they are not there or not current, and run in a folder of their own.

What is current is said by a stamp: a digest of every source of the programs, and of the programs themselves. Building holds a lock; running shares it,
so that no run meets a program that is half built. Nothing is written where the stamp is good.
"""
import contextlib
import fcntl
import hashlib
import os
import re
import select
import shutil
import subprocess
import sys
import tempfile
import time

from faults import CannotRun

ROOT = os.path.dirname(os.path.dirname(os.path.realpath(__file__)))
TARGET = os.path.join(ROOT, "target")
LOCK, STAMP, LOG = (os.path.join(TARGET, name) for name in ("front.lock", "front.stamp", "front.log"))
PROGRAMS = ("boddivarn", "calls")
INSTALL = "Install rattle-kit-13f and put its folder bin on PATH (docs/GUIDE.md, Installing)"
SOURCES = ("src", "specs", "proofs", "data", "stdin", "stdout", "args")


def say(words):
    print(f"boddivarn: {words}", file=sys.stderr, flush=True)


# ---- what is current


def crates_below():
    """The programs' crates and all below them."""
    with open(os.path.join(ROOT, "crates.txt"), encoding="utf-8") as lines:
        rows = [line.split("#")[0].split(":") for line in lines if line.split("#")[0].strip()]
    listed, found, next_ones = {row[0].strip(): row[1].split() for row in rows}, set(), list(PROGRAMS)
    while next_ones:
        crate = next_ones.pop()
        if crate in listed and crate not in found:
            found.add(crate)
            next_ones += listed[crate]
    return sorted(found), [(crate, listed[crate]) for crate in sorted(found)]


def files_below(folder):
    if os.path.isfile(folder):
        yield folder
    for path, folders, files in os.walk(folder):
        folders.sort()
        yield from (os.path.join(path, name) for name in sorted(files))


def digest_of(paths):
    digest = hashlib.sha256()
    for path in paths:
        with open(path, "rb") as file:
            data = file.read()
        digest.update(f"{os.path.relpath(path, ROOT)} {len(data)}\n".encode() + data)
    return digest.hexdigest()


def sources_now():
    crates, rows = crates_below()
    paths = [path for crate in crates for part in SOURCES for path in files_below(os.path.join(ROOT, "crates", crate, part))]
    return hashlib.sha256(repr(rows).encode()).hexdigest() + " " + digest_of(paths)


def programs_now():
    paths = [os.path.join(TARGET, "bin", program) for program in PROGRAMS]
    return digest_of(paths) if all(map(os.path.exists, paths)) else None


def is_current():
    try:
        with open(STAMP, encoding="ascii") as file:
            return file.read().split("\n")[:2] == [sources_now(), programs_now()]
    except OSError:
        return False


# ---- building


@contextlib.contextmanager
def shared():
    """Nobody builds meanwhile; where no lock can be had, nobody can build here."""
    try:
        file = open(LOCK, "rb")
    except OSError:
        yield
        return
    with file:
        take_lock(file, fcntl.LOCK_SH, "another run is building the programs; waiting for it")
        yield


def take_lock(file, kind, words):
    """Says so where it must wait."""
    try:
        fcntl.flock(file, kind | fcntl.LOCK_NB)
    except BlockingIOError:
        say(words)
        fcntl.flock(file, kind)


@contextlib.contextmanager
def ready():
    """The programs are there and current until the end of the block."""
    with contextlib.ExitStack() as held:
        held.enter_context(shared())
        if not is_current():
            held.close()
            build()
            held.enter_context(shared())
            if not is_current():
                raise CannotRun("the sources changed while they were proved; run the command again")
        yield


def build():
    """Proves and builds; one run at a time, the others wait and find it done."""
    if shutil.which("rt") is None:
        raise CannotRun(f"the programs must be proved and built first, and the Rattle kit that does it is missing: no 'rt' is on PATH. {INSTALL}")
    try:
        os.makedirs(TARGET, exist_ok=True)
        file = open(LOCK, "ab")
    except OSError as error:
        raise CannotRun(f"the programs must be built anew, and {TARGET} cannot be written: {error.strerror}. Build where it can") from None
    with file:
        take_lock(file, fcntl.LOCK_EX, "another run is building the programs or running them; waiting for it")
        if not is_current():
            prove(file)


def prove(lock):
    """Runs rt, and stamps what it built. The lock goes along: it is held until rt has ended, even where this run is killed."""
    with contextlib.suppress(FileNotFoundError):
        os.remove(STAMP)
    sources, total = sources_now(), len(crates_below()[0])
    say(f"proving and building the programs, {total} crates (from nothing some minutes, else what has changed)")
    said, status = b"", 0
    for program in PROGRAMS:
        told, status = build_one(program, lock, total, said)
        said += told
        if status != 0:
            break
        put_in_place(program)
    with open(LOG, "wb") as file:
        file.write(said)
    if status != 0:
        raise CannotRun("the programs could not be proved and built:\n" + last_words(said) + f"\n(all of it is in {LOG})")
    with open(STAMP, "w", encoding="ascii") as file:
        file.write(f"{sources}\n{programs_now()}\n")


def build_one(program, lock, total, before):
    """What rt said, and its status. It proves what is below too, links the program into its crate's out/, and runs it there once, on no input."""
    pipes = {"stdin": subprocess.DEVNULL, "stdout": subprocess.PIPE, "stderr": subprocess.STDOUT}
    with subprocess.Popen(["rt", "run"], cwd=os.path.join(ROOT, "crates", program), pass_fds=[lock.fileno()], **pipes) as command:
        try:
            said = follow(command, total, proved_in(before))
        except BaseException:
            command.terminate()
            raise
    return said, command.returncode


def put_in_place(program):
    """At once, so that nobody meets a program that is half written."""
    os.makedirs(os.path.join(TARGET, "bin"), exist_ok=True)
    place = os.path.join(TARGET, "bin", program)
    shutil.copy(os.path.join(ROOT, "crates", program, "out", program), place + ".new")
    os.replace(place + ".new", place)


def proved_in(said):
    return len(re.findall(rb"^logic=proved", said, re.M))


def follow(command, total, before, every=20.0):
    """What rt says, handed on as how far it is; a line now and then where it says nothing."""
    said, began, spoke, done = b"", time.monotonic(), time.monotonic(), before
    while True:
        ready_now, _, _ = select.select([command.stdout], [], [], 1.0)
        if ready_now:
            chunk = os.read(command.stdout.fileno(), 65536)
            if not chunk:
                return said
            said += chunk
        proved = before + proved_in(said)
        now = time.monotonic()
        if proved > done or now - spoke > every:
            say(f"{proved} of {total} crates proved, {now - began:.0f} s")
            spoke = now
        done = proved


def last_words(said, most=30):
    lines = said.decode("utf-8", "replace").rstrip().split("\n")
    return "\n".join("    " + line[:200] for line in lines[-most:])


# ---- running


def run(program, files):
    """What a program prints in a folder that holds these files, and no others."""
    if os.uname().machine != "x86_64" and shutil.which("rt") is None:
        raise CannotRun(f"the programs are for x86-64, and the Rattle kit that runs them here is missing: no 'rt' is on PATH. {INSTALL}")
    try:
        with tempfile.TemporaryDirectory(prefix="boddivarn-") as folder:
            for name, data in files.items():
                with open(os.path.join(folder, name), "wb") as file:
                    file.write(data)
            ran = subprocess.run([os.path.join(ROOT, "tools", "run"), program], cwd=folder, capture_output=True)
    except OSError as error:
        raise CannotRun(f"{program} cannot be run: {error}") from None
    if ran.returncode != 0:
        raise CannotRun(f"{program} ended with status {ran.returncode}: {ran.stderr.decode('utf-8', 'replace').strip()}")
    return ran.stdout
