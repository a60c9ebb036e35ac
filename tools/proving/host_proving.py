"""Proves and builds the crates of a workspace over host_heap, side by side, lowest first.

`rt` locks every crate below the one that it works on, so each crate over host_heap would wait for
all others. Here each is built by a process of its own, through the functions by which `rt ci`
builds it: a library holds its statements, and the kit's own judgement of the last line counts. What
`rt lib` keeps for its next run is left out: a library of host_heap that is built so lacks some of
its checked modules, and each crate above checks them once more.

A crate counts as proved where its own files, the kit and the libraries below it are those that its
proof read. A crate that does not reach the heap is taken from the repository where it is built
there."""

import functools
import os
import shutil
import signal
import subprocess
import sys
import time

sys.dont_write_bytecode = True
import host_heap
import proving
from host_workspace import EXPORTS, PARTS
from proving import TOP, Failure, Stop

WASM = "wasm64-unknown-unknown"
SECONDS = f"{TOP}/tools/seconds"


class HostCrate(proving.Crate):
    """A crate of the workspace. That of the exports is built as a module."""

    def __init__(self, workspace, *words):
        super().__init__(*words)
        self.folder = f"{workspace}/crates/{self.name}"
        self.is_archive = self.name == EXPORTS

    def program(self):
        return f"{self.folder}/out/{self.name}.wasm"


def crates_of(workspace):
    """The workspace's crates by name, each after those below it, with the sums of their files."""
    crates = proving.read_crates(workspace, functools.partial(HostCrate, workspace))
    proving.sum_up(crates, f"{workspace}/crates")
    return crates


def is_newer(library, crate):
    """Whether a library is as new as the sources of its crate and of those below."""
    built = os.stat(library).st_mtime
    folders = [f"{it.folder}/{part}" for it in [*crate.below, crate] for part in PARTS]
    files = (it for folder in folders for it in proving.files_of(folder))
    return all(os.stat(it).st_mtime <= built for it in files)


class Job:
    """A crate at work."""

    def __init__(self, workspace, crate):
        self.crate, self.began = crate, time.monotonic()
        self.log = f"{workspace}/logs/{crate.name}.log"
        os.makedirs(os.path.dirname(self.log), exist_ok=True)
        words = [sys.executable, os.path.realpath(__file__), workspace, crate.name]
        with open(self.log, "wb") as log:
            self.process = subprocess.Popen(
                words, stdin=subprocess.DEVNULL, stdout=log, stderr=log, start_new_session=True,
                env={**os.environ, "RT_ALLOW_C": host_heap.NAME}, preexec_fn=self.end_with_this)

    @staticmethod
    def end_with_this():
        proving.SYSTEM.prctl(proving.PR_SET_PDEATHSIG, signal.SIGKILL)

    def has_ended(self):
        ended, status, used = os.wait4(self.process.pid, os.WNOHANG)
        if not ended:
            return False
        self.process.returncode = status
        self.seconds = used.ru_utime + used.ru_stime
        return True

    def kill(self):
        if self.process.returncode is None:
            os.killpg(self.process.pid, signal.SIGKILL)


class Proof:
    """The workspace's crates, those that are proved, and those at work."""

    def __init__(self, workspace, say):
        self.workspace, self.say = workspace, say
        self.crates = crates_of(workspace)
        self.made, self.left, self.jobs, self.failed = {}, [*self.crates.values()], [], []
        seconds = proving.read_seconds(SECONDS)
        self.chain = {}
        for crate in reversed(self.left):
            above = [self.chain[it] for it in self.chain if crate in it.below]
            own = seconds.get(crate.name) or len(proving.read_all(crate)) / 1000
            self.chain[crate] = own + max(above, default=0)

    def take(self, names):
        """Takes what the repository has built of these crates, if it has all of them: libraries
        that several runs of `rt` built need not fit to each other."""
        self.ready()
        own = proving.read_crates()
        built = {it: f"{own[it].folder}/out/rlib/{it}.rlib" for it in names}
        if not all(os.path.isdir(built[it]) and is_newer(built[it], own[it]) for it in names):
            return
        for crate in [it for it in self.left if it.name in names]:
            self.empty(crate)
            shutil.copytree(built[crate.name], f"{crate.folder}/out/rlib/{crate.name}.rlib")
            self.left.remove(crate)
            self.note(crate)

    @staticmethod
    def empty(crate):
        shutil.rmtree(f"{crate.folder}/out", ignore_errors=True)
        os.makedirs(f"{crate.folder}/out")

    def note(self, crate):
        """Notes what a crate was built into, and from what."""
        self.made[crate.name] = crate.made()
        crate.note(crate.key(self.made), self.made[crate.name], [crate.sum])

    def ready(self):
        """The crates over what is proved, the longest chain first; those that are proved already
        are taken as they are."""
        found = []
        for crate in [*self.left]:
            if all(it.name in self.made for it in crate.below):
                built = crate.proved_over(self.made, True)
                if built:
                    self.left.remove(crate)
                    self.made[crate.name] = built
                else:
                    found.append(crate)
        return sorted(found, key=lambda it: -self.chain[it])

    def begin(self, crate):
        self.left.remove(crate)
        self.empty(crate)
        self.jobs.append(Job(self.workspace, crate))

    def collect(self):
        for job in [it for it in self.jobs if it.has_ended()]:
            self.jobs.remove(job)
            wall = time.monotonic() - job.began
            how = "is proved" if job.process.returncode == 0 else f"failed, see {job.log}"
            self.say(f"{job.crate.name} {how}: {job.seconds:.0f} processor seconds,"
                     f" {wall:.0f} by the clock")
            if job.process.returncode:
                self.failed.append(job.crate.name)
            else:
                self.note(job.crate)

    def run(self, at_once):
        """Proves all that can be proved. Raises Failure where a crate is not."""
        try:
            while self.jobs or self.ready():
                for crate in self.ready()[: at_once - len(self.jobs)]:
                    self.begin(crate)
                Stop.pause(0.1)
                self.collect()
        finally:
            for job in self.jobs:
                job.kill()
        if self.failed:
            lacking = ", ".join(it.name for it in self.left)
            raise Failure(f"not proved: {', '.join(self.failed)}; not reached: {lacking}")


# ---- one crate, in a process of its own

def functions_of_kit():
    """The kit's own functions for crates, as `rt ci` uses them."""
    sys.path.insert(0, os.path.dirname(proving.kit_library()))
    import rtlib

    # Each of these goes through every path that leads to a crate.
    for name in ("below", "stamp"):
        setattr(rtlib.Crate, name, functools.cache(getattr(rtlib.Crate, name)))
    rtlib.Crate.cuts_libraries = True
    rtlib.Crate.may_call_c = True
    # It ends what it starts when this process ends, and can be made in the main thread alone.
    rtlib.guarded()
    return rtlib


def build_module(rtlib, crate):
    """Proves the crate of the exports, and links its module."""
    archive, toolchain = f"out/lib{crate.name}.a", ["--toolchain", f"{rtlib.KIT}/toolchain"]
    words = crate.words(["--jobs", "1"], keeps=False)
    status = crate.prove(["build", *words, *toolchain, "--backend", "llvm", "-o", archive])
    link = [f"{rtlib.KIT}/bin/rattle-link", "--target", WASM, *toolchain]
    return status or crate.call(*link, "-o", f"out/{crate.name}.wasm", archive)


def build(workspace, name):
    """Proves and builds a crate. Returns the status."""
    rtlib = functions_of_kit()
    os.chdir(f"{workspace}/crates/{name}")
    crate = rtlib.Crate(os.getcwd(), workspace, {})
    if crate.is_static:
        return build_module(rtlib, crate)
    return crate.build_rlib(["--jobs", "1"], anew=True)


if __name__ == "__main__":
    sys.exit(build(*sys.argv[1:]))
