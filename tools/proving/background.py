"""The proof in the background: one for a clone, while the unproved program serves.

Beside what tools/proving/proving.py keeps, the clone's folder of the cache has for it

    proof.lock      held by the proof at work, with its process id
    proof.waits     held by each call that waits for a proved program
    proof.log       what the proof said
    proof.progress  how many crates are proved, of how many, and the second when it began
    proof.failed    the sum of the program that is not proved, and why

It runs at the lowest priority and leaves one core free, unless a call waits for it. It ends when it
is stopped, when the sources differ from those that it copied, and when its folder cannot be
written."""

import contextlib
import fcntl
import os
import shutil
import signal
import sys
import time

import proving
from proving import TOP, Failure

LOOK_EVERY = 2  # seconds
PATIENCE = 30  # seconds in which a proof ends that is told to


def lower():
    """Gives this process, and all that it starts, the lowest priority."""
    with contextlib.suppress(OSError):
        os.nice(19)
    proving.lower_session()


def state_of(top):
    """What tells that a file was changed, for each file that a proof reads."""
    files = [f"{top}/crates.txt", *proving.sources(top)]
    return {it: (found.st_mtime_ns, found.st_size) for it in files for found in [os.stat(it)]}


def sum_of(name):
    """The sum of what a crate is proved from, as the clone is now."""
    crates = proving.read_crates()
    proving.sum_up(crates, f"{TOP}/crates")
    return crates[name].sum


class Proof:
    """The proof of a clone, by the folder where it keeps what it needs."""

    def __init__(self, room):
        self.room, self.held = room, None

    def file(self, name):
        return f"{self.room}/proof.{name}"

    def is_at_work(self):
        try:
            with open(self.file("lock"), "rb") as lock:
                fcntl.flock(lock, fcntl.LOCK_SH | fcntl.LOCK_NB)
        except BlockingIOError:
            return True
        except OSError:
            pass
        return False

    def hold(self):
        """Takes the place of the one proof, and returns whether it was free."""
        self.held = open(self.file("lock"), "a+b")
        for _ in range(20):
            try:
                fcntl.flock(self.held, fcntl.LOCK_EX | fcntl.LOCK_NB)
                self.held.truncate(0)
                self.held.write(b"%d\n" % os.getpid())
                self.held.flush()
                return True
            except BlockingIOError:
                time.sleep(0.05)  # a call that only looks holds it for a moment
        return False

    def is_held(self):
        """Whether the file that is held is still the one of the cache."""
        try:
            return os.path.samestat(os.fstat(self.held.fileno()), os.stat(self.file("lock")))
        except OSError:
            return False

    def wait(self):
        """Says that a call waits, as long as what is returned is open."""
        waits = open(self.file("waits"), "wb")
        with contextlib.suppress(OSError):
            fcntl.flock(waits, fcntl.LOCK_SH)
        return waits

    def is_waited_for(self):
        try:
            with open(self.file("waits"), "wb") as it:
                fcntl.flock(it, fcntl.LOCK_EX | fcntl.LOCK_NB)
        except BlockingIOError:
            return True
        except OSError:
            pass
        return False

    def note(self, done, total, began):
        proving.write(self.file("progress"), f"{done} {total} {began:.0f}\n")

    def progress(self):
        """How many crates are proved, of how many, and for how many minutes it is at work, or None
        where that is not known yet."""
        try:
            done, total, began = map(int, proving.read(self.file("progress")).split())
        except (OSError, ValueError):
            return None
        return done, total, max(0, int(time.time()) - began) // 60

    def note_failure(self, program, text):
        proving.write(self.file("failed"), f"{program.sum}\n{text}\n")

    def failure(self, name):
        """Why the program is not proved from the sources as they are, or None."""
        try:
            known, _, text = proving.read(self.file("failed")).decode().partition("\n")
        except OSError:
            return None
        return text.strip() if known == sum_of(name) else None

    def forget_failure(self):
        with contextlib.suppress(OSError):
            os.remove(self.file("failed"))

    def stop(self):
        """Ends the proof at work, and returns whether there was one."""
        if not self.is_at_work():
            return False
        pid = proving.number_in(self.file("lock"), r"^(\d+)\n")
        deadline = time.monotonic() + PATIENCE
        for number in (signal.SIGTERM, signal.SIGKILL):
            with contextlib.suppress(OSError, TypeError):
                os.kill(pid, number)
            while self.is_at_work() and time.monotonic() < deadline:
                time.sleep(0.05)
            deadline += 1
        self.clear()
        return True

    def clear(self):
        """Removes what a proof needs only while it is at work."""
        for name in ("sources", "work"):
            shutil.rmtree(f"{self.room}/{name}", ignore_errors=True)
        with contextlib.suppress(OSError):
            os.remove(self.file("progress"))


class Ended(Failure):
    """The proof may not go on, though nothing has failed."""


class Waited(Exception):
    """A call waits for the proof, so nothing is made before it."""


class Watch:
    """Looks from time to time whether the proof may go on, and notes how far it is."""

    def __init__(self, proof, name, at_once):
        self.proof, self.name, self.began = proof, name, time.time()
        self.state, self.sum = state_of(TOP), sum_of(name)
        self.most, self.least = at_once, max(1, min(at_once, len(os.sched_getaffinity(0)) - 1))
        self.before, self.total, self.looked = 0, 0, 0

    def begin(self, crates, program):
        """Counts what is proved of the program, before a build."""
        proving.sum_up(crates, f"{TOP}/crates")
        wanted = [*program.below, program]
        self.before, self.total = len(proving.proved(wanted)), len(wanted)
        self.proof.note(self.before, self.total, self.began)

    def is_time(self):
        """Whether it is time to look again, and then raises Ended where the proof may not go on."""
        if time.monotonic() - self.looked < LOOK_EVERY:
            return False
        self.looked = time.monotonic()
        if not self.proof.is_held():
            raise Ended("ended: the folder of the cache is gone")
        self.look_at_sources()
        return True

    def pause(self, seconds):
        """Waits before the proof. Raises Ended where that may not begin, and Waited where it may not
        wait any more."""
        proving.Stop.pause(seconds)
        if self.is_time() and self.proof.is_waited_for():
            raise Waited

    def look(self, build):
        """Raises Ended where the proof may not go on. `build` is what is at work."""
        if not self.is_time():
            return
        build.at_once = self.most if self.proof.is_waited_for() else self.least
        done = self.before + build.count()
        self.proof.note(done, self.total, self.began)

    def look_at_sources(self):
        try:
            state = state_of(TOP)
            if state == self.state:
                return
            is_same = sum_of(self.name) == self.sum
        except (OSError, KeyError, ValueError):
            is_same = False
        if not is_same:
            raise Ended("ended: the clone has changed")
        self.state = state


def start(words, folder, log):
    """Starts a command in a folder, in a session of its own without a terminal. What it says goes
    to the folder's file `log`."""
    if os.fork():
        os.wait()
        return
    os.setsid()
    if os.fork():
        os._exit(0)
    try:
        log = os.open(f"{folder}/{log}", os.O_WRONLY | os.O_CREAT | os.O_TRUNC, 0o600)
        null = os.open(os.devnull, os.O_RDONLY)
        for source, target in ((null, 0), (log, 1), (log, 2)):
            os.dup2(source, target)
        os.closerange(3, 256)
        os.chdir(folder)
        os.execv(sys.executable, [sys.executable, *words])
    finally:
        os._exit(proving.NOT_BUILT)


def begin(proof, words):
    """Starts the words as a proof, and waits a moment until it is at work."""
    start(words, proof.room, "proof.log")
    for _ in range(20):
        if proof.is_at_work():
            return
        time.sleep(0.05)
