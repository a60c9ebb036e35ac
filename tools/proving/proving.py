"""Proves crates side by side.

`rt` locks every crate below the one that it works in, so two runs of it in one workspace wait for
each other. Here each crate is proved in a workspace of its own: a crates.txt, copies of its sources
and of those below it, links to the libraries built from them, and its own out/, which is moved
there and back. out/ can be moved: the same kit can use it at any path.

All of this stands in a folder of the user's cache, one for each clone:

    logs/NAME.log   what the tools printed about a crate
    sources/        the sources as they were when the run began
    work/NAME/      the workspace of a crate that is being proved
    seconds         processor seconds of each crate that was proved from nothing
    unproved/       the programs without proof, of tools/proving/unproved.py
    proof.NAME      what tools/proving/background.py keeps
    proved          the sums of the crates that were proved and tested, for `tools/prove changed`

A crate counts as proved where its own files, the kit and the built libraries below it are those
that its proof read. So an edit has a crate above proved again only where a library below it comes
out changed, which a comment in a source file does not do. `rt` itself goes by the sources of all
crates below, so a library that stays is given the sum that `rt` looks for. With a kit that does not
say that sum, a crate is proved again after each edit below it.
"""

import ctypes
import fcntl
import functools
import hashlib
import importlib.machinery
import importlib.util
import os
import re
import shutil
import signal
import subprocess
import sys
import tempfile
import time

TOP = os.path.dirname(os.path.dirname(os.path.dirname(os.path.realpath(__file__))))
MEMORY_OF_A_JOB = 3_000_000_000
SIZE_OF_JOB = 20_000  # bytes of a crate's source for each job after the first
NOT_BUILT = 125
SUMS_KEPT = 20  # of the sources that came to one proof
MUST_FAIL = "must-fail"
PR_SET_PDEATHSIG, PR_SET_CHILD_SUBREAPER = 1, 36
SYSTEM = ctypes.CDLL(None)


class Failure(Exception):
    """The run cannot continue; its text is what the user reads."""


class Stop:
    """The signal that asks this run to end, once one has come."""

    signal = None

    @classmethod
    def watch(cls):
        for it in (signal.SIGINT, signal.SIGTERM, signal.SIGHUP):
            # nohup has SIGHUP ignored, and means it.
            if it != signal.SIGHUP or signal.getsignal(it) is not signal.SIG_IGN:
                signal.signal(it, lambda number, _: setattr(cls, "signal", number))
        signal.signal(signal.SIGCHLD, signal.SIG_DFL)

    @classmethod
    def pause(cls, seconds):
        time.sleep(seconds)
        if cls.signal:
            raise SystemExit(128 + cls.signal)


def become(file, words):
    """Becomes another program, with the signals as they were before Python started."""
    for it in (signal.SIGPIPE, signal.SIGXFSZ):
        signal.signal(it, signal.SIG_DFL)
    os.execv(file, [file, *words])


class Crate:
    """A line of crates.txt. `below` are the crates that it stands on, each after its own."""

    def __init__(self, name, row, uses):
        self.name, self.row, self.uses = name, row, uses
        self.below = [*dict.fromkeys(it for use in uses for it in [*use.below, use])]
        self.folder = f"{TOP}/crates/{name}"
        self.is_program = os.path.isfile(f"{self.folder}/src/main.rt")
        self.is_archive = "staticlib" in row.partition(":")[0].split()

    def is_library(self):
        return not self.is_program and not self.is_archive

    def has_tests(self):
        files = (file for file in files_of(f"{self.folder}/src") if file.endswith(".rt"))
        return any(re.search(rb"#\s*\[[^]]*\btest\b", read(it)) for it in files)

    def bodies(self):
        """The folder of the wrong bodies that `./test --bodies` tries."""
        return f"{TOP}/tests/bodies/{self.name}"

    def program(self):
        """The file that is built: the program, or the archive that C links."""
        return f"{self.folder}/out/" + (f"lib{self.name}.a" if self.is_archive else self.name)

    def mark(self):
        """The file that keeps what out/ was proved from. rt removes it with an out/rlib that is
        old."""
        is_file = self.is_program or self.is_archive
        return f"{self.program()}.proved" if is_file else f"{self.folder}/out/rlib/proved"

    def made(self):
        """The sum of what was built: the program or the archive, or None where it is not there, or
        all files of the library, or the sources where the kit keeps it elsewhere."""
        if not self.is_library():
            return sum_of([self.program()], TOP)
        folder = f"{self.folder}/out/rlib/{self.name}.rlib"
        return sum_of([*files_of(folder)], folder) or self.sum

    def stamp(self):
        """The sum that `rt` gave its library."""
        file = f"{self.folder}/out/rlib/stamp"
        return read(file).decode() if os.path.isfile(file) else None

    def key(self, made):
        """The sum of what its proof reads, where `made` has what those below were built into."""
        below = sorted((it.name, made[it.name]) for it in self.below)
        return hashlib.sha256(repr((self.own, below)).encode()).hexdigest()

    def noted(self):
        """What its mark has: the key by which it was proved, what was built then, and the sums of
        the sources that came to that."""
        try:
            key, made, *sums = read(self.mark()).decode().split()
        except (OSError, ValueError):
            return None, None, []
        return key, made, sums

    def note(self, key, made, sums):
        write(self.mark(), "".join(f"{it}\n" for it in [key, made, *sums[-SUMS_KEPT:]]))

    def proved_over(self, made, is_by_content):
        """What it was built into, where it is proved over what `made` has of those below, or None.
        If not `is_by_content`, it has to be from these sources, and those below too."""
        key, built, sums = self.noted()
        if key != self.key(made) or not (self.sum in sums or is_by_content):
            return None
        return built if self.is_library() or built == self.made() else None

    def is_proved(self):
        return self.name in proved([*self.below, self])


def proved(crates):
    """What each of these crates that is proved was built into, by name. Each comes after those
    below."""
    found, is_by_content = {}, kit_library() is not None
    for crate in crates:
        is_over_proved = all(it.name in found for it in crate.below)
        if is_over_proved and (built := crate.proved_over(found, is_by_content)):
            found[crate.name] = built
    return found


def sum_of(files, top):
    """The sum of these files, with their names below a folder; or None where one is not there."""
    found = hashlib.sha256()
    try:
        for file in files:
            found.update(repr((os.path.relpath(file, top), os.path.getsize(file))).encode())
            with open(file, "rb") as it:
                while part := it.read(1 << 20):
                    found.update(part)
    except OSError:
        return None
    return found.hexdigest() if files else None


def read(file):
    with open(file, "rb") as it:
        return it.read()


def write(file, text):
    os.makedirs(os.path.dirname(file), exist_ok=True)
    with open(f"{file}.part", "w", encoding="utf-8") as it:
        it.write(text)
    os.replace(f"{file}.part", file)


def files_of(folder):
    for at, folders, names in os.walk(folder):
        folders.sort()
        yield from (f"{at}/{name}" for name in sorted(names))


def read_crates(top=TOP, kind=Crate):
    """The crates of crates.txt by name, each after those that it stands on."""
    rows, crates = {}, {}
    for line in read(f"{top}/crates.txt").decode().splitlines():
        row = line.partition("#")[0].strip()
        if row:
            head, _, uses = row.partition(":")
            rows[head.split()[0]] = row, re.split(r"[\s,]+", uses)

    def add(name):
        row, uses = rows[name]
        own = [it for it in uses if it in rows]
        for it in own:
            if it not in crates:
                add(it)
        crates[name] = kind(name, row, [crates[it] for it in own])

    for name in rows:
        if name not in crates:
            add(name)
    return crates


def kit():
    """What the kit says of itself."""
    if not shutil.which("rt"):
        raise Failure("not built: there is no rt on the PATH, which the Rattle kit has")
    ran = subprocess.run(["rt", "version"], stdin=subprocess.DEVNULL, capture_output=True)
    if ran.returncode or not ran.stdout:
        raise Failure(f"not built: rt version ended with status {ran.returncode} and no version")
    return ran.stdout


def kit_library():
    """The file with the kit's own functions for crates, or None where the kit has another form."""
    rt = shutil.which("rt")
    file = f"{os.path.dirname(os.path.realpath(rt))}/rtlib.py" if rt else ""
    return file if os.path.isfile(file) else None


def stamps_of(crates, top):
    """The sum by which `rt` knows each library as built from the sources below `top`, by name. None
    are found where the kit has another form."""
    try:
        loader = importlib.machinery.SourceFileLoader("rtlib", kit_library())
        kit_of = importlib.util.module_from_spec(importlib.util.spec_from_loader("rtlib", loader))
        loader.exec_module(kit_of)
        # Each of these goes through every path that leads to a crate.
        for name in ("below", "stamp"):
            setattr(kit_of.Crate, name, functools.cache(getattr(kit_of.Crate, name)))
        known, found = {}, {}
        for it in crates:
            folder = f"{top}/crates/{it.name}"
            known[folder] = known.get(folder) or kit_of.Crate(folder, top, known)
            found[it.name] = known[folder].stamp()
        return found
    except (Exception, SystemExit):  # whatever another kit's functions do
        return {}


def sum_up(crates, sources):
    """Gives each crate the sum of its files and the kit, and the sum of these and of those below
    it."""
    version = kit()
    for crate in crates.values():
        found = hashlib.sha256(version + crate.row.encode())
        folder = f"{sources}/{crate.name}"
        for file in files_of(folder):
            inside = os.path.relpath(file, folder)
            if not inside.startswith((f"{MUST_FAIL}/", "out/")):
                found.update(repr((inside, read(file))).encode())
        crate.own = found.hexdigest()
        for it in crate.uses:
            found.update(it.sum.encode())
        crate.sum = found.hexdigest()


def sources(top):
    """The files that the crates are built from."""
    for name in sorted(os.listdir(f"{top}/crates")):
        for at, folders, names in os.walk(f"{top}/crates/{name}"):
            folders[:] = [it for it in folders if it != "out"]
            yield from (f"{at}/{it}" for it in names)


def copy_sources(crates, top, to):
    """Copies the crates without out/, so that no edit comes between one proof and another."""
    shutil.rmtree(to, ignore_errors=True)
    for crate in crates:
        leave = lambda at, names: [it for it in names if it == "out"]
        shutil.copytree(f"{top}/crates/{crate.name}", f"{to}/{crate.name}", ignore=leave)


def lay_sources(crates, top, to):
    """Copies the crates and their rows as `rt` reads them."""
    copy_sources(crates, top, f"{to}/crates")
    write(f"{to}/crates.txt", "".join(f"{it.row}\n" for it in crates))


def can_write(folder):
    """Makes a folder, and returns whether files can be made there."""
    try:
        os.makedirs(folder, exist_ok=True)
        with tempfile.TemporaryFile(dir=folder):
            return True
    except OSError:
        return False


def own_folder():
    """A folder of this user's below that for temporary files, or None where it is another's."""
    path = f"{tempfile.gettempdir()}/mos65-{os.getuid()}"
    try:
        os.makedirs(path, mode=0o700, exist_ok=True)
        return path if os.lstat(path).st_uid == os.getuid() else None
    except OSError:
        return None


def cache():
    """This clone's folder in the user's cache. That is XDG_CACHE_HOME, or .cache in HOME, whichever
    is an absolute path; where it cannot be written, a folder below that for temporary files
    serves."""
    given, home = (os.environ.get(it, "") for it in ("XDG_CACHE_HOME", "HOME"))
    places = [given] * os.path.isabs(given) or [f"{home}/.cache"] * os.path.isabs(home)
    name = hashlib.sha256(TOP.encode()).hexdigest()[:16]
    for above in places:
        if can_write(f"{above}/mos65/{name}"):
            return f"{above}/mos65/{name}"
    above = own_folder()
    if above and can_write(f"{above}/mos65/{name}"):
        return f"{above}/mos65/{name}"
    raise Failure("not built: neither HOME nor the folder for temporary files can be written")


def number_in(file, pattern):
    try:
        return int(re.search(pattern, read(file).decode())[1])
    except (OSError, TypeError):
        return None


def jobs_at_once():
    """How many provers run at a time: MOS65_JOBS, or one for each core that has 3 GB of memory."""
    if re.fullmatch("[1-9][0-9]*", os.environ.get("MOS65_JOBS", "")):
        return int(os.environ["MOS65_JOBS"])
    group = "/sys/fs/cgroup"
    cores = len(os.sched_getaffinity(0))
    quota = number_in(f"{group}/cpu.max", r"^(\d+)")
    period = number_in(f"{group}/cpu.max", r" (\d+)")
    if quota and period:
        cores = min(cores, max(quota // period, 1))
    free = 1024 * (number_in("/proc/meminfo", r"MemAvailable:\s+(\d+)") or 0)
    limit = number_in(f"{group}/memory.max", r"^(\d+)")
    held = number_in(f"{group}/memory.stat", r"anon (\d+)")
    if limit and held is not None:
        free = min(free, limit - held)
    return max(1, min(cores, free // MEMORY_OF_A_JOB))


def lock(crates, say):
    """Waits until no other build and no rt works in these crates. Returns what keeps others out."""
    held, has_said = [], False
    for folder in sorted(os.path.realpath(it.folder) for it in crates):
        held.append(os.open(folder, os.O_RDONLY))
        while True:
            try:
                fcntl.flock(held[-1], fcntl.LOCK_EX | fcntl.LOCK_NB)
                break
            except BlockingIOError:
                if not has_said:
                    say(f"waiting for another build at work in {folder}")
                has_said = True
                Stop.pause(0.5)
            except OSError:
                break  # a file system without locks
    return held


def link_or_copy(source, to):
    try:
        os.link(source, to)
    except OSError:
        shutil.copy2(source, to)


def move(source, to):
    """Moves a folder, and takes away what stood there."""
    shutil.rmtree(to, ignore_errors=True)
    os.makedirs(os.path.dirname(to), exist_ok=True)
    shutil.move(source, to)


class Workspace:
    """The workspace in which one crate is proved."""

    def __init__(self, room, crate):
        self.crate, self.sources = crate, f"{room}/sources/crates"
        self.top = f"{room}/work/{crate.name}"
        self.folder = f"{self.top}/crates/{crate.name}"

    def fill(self, bodies, stamps):
        """Lays the crate and those below it there, with these wrong bodies where any are given. The
        libraries below get the sums by which `rt` knows them."""
        crates = [*self.crate.below, self.crate]
        write(f"{self.top}/crates.txt", "".join(f"{it.row}\n" for it in crates))
        for it in crates:
            shutil.copytree(f"{self.sources}/{it.name}", f"{self.top}/crates/{it.name}")
        for it in self.crate.below:
            if it.name in stamps and it.stamp() != stamps[it.name]:
                write(f"{it.folder}/out/rlib/stamp", stamps[it.name])
            built = f"{self.top}/crates/{it.name}/out/rlib"
            shutil.copytree(f"{it.folder}/out/rlib", built, copy_function=link_or_copy)
        if os.path.isdir(f"{self.crate.folder}/out"):
            move(f"{self.crate.folder}/out", f"{self.folder}/out")
        if bodies:
            shutil.rmtree(f"{self.folder}/must-fail", ignore_errors=True)
            shutil.copytree(bodies, f"{self.folder}/must-fail")

    def give_back(self):
        """Puts out/ back where it came from, with all that was proved, unless the clone is gone."""
        if os.path.isdir(f"{self.folder}/out") and os.path.isdir(self.crate.folder):
            move(f"{self.folder}/out", f"{self.crate.folder}/out")
        shutil.rmtree(self.top, ignore_errors=True)


def lower_session():
    """Gives this session the least share of the processors, where the system shares them so."""
    for _ in range(5):
        try:
            with open("/proc/self/autogroup", "w", encoding="ascii") as it:
                it.write("19")
            return
        except BlockingIOError:
            time.sleep(0.12)  # the system takes ten such changes a second
        except OSError:
            return


class Run:
    """A crate at work: its steps in turn, each a command of rt in the crate's workspace."""

    is_low = False  # whether it is to leave the processors to others

    def __init__(self, room, crate, steps, jobs, stamps):
        self.crate, self.jobs, self.steps = crate, jobs, [*steps]
        self.builds = ["lib"] in steps
        self.log, self.seconds, self.status = f"{room}/logs/{crate.name}.log", 0, None
        self.is_new = not os.path.isdir(f"{crate.folder}/out/incremental")
        self.space = Workspace(room, crate)
        self.space.fill(crate.bodies() if any(it[0] == MUST_FAIL for it in steps) else None, stamps)
        open(self.log, "wb").close()
        self.begin()

    def begin(self):
        """Begins the next step: the command of rt, and the words for it."""
        self.verb, *words = self.steps.pop(0)
        if self.verb not in ("fmt", MUST_FAIL):
            words = ["--jobs", str(self.jobs), *words]
        with open(self.log, "ab") as log:
            self.began = log.tell()
            # rt ends with this process, however that ends, and what rt has started ends with rt.
            self.process = subprocess.Popen(
                ["rt", self.verb, *words], cwd=self.space.folder, start_new_session=True,
                stdin=subprocess.DEVNULL, stdout=log, stderr=log,
                preexec_fn=self.prepare_child,
            )

    def prepare_child(self):
        SYSTEM.prctl(PR_SET_PDEATHSIG, signal.SIGKILL)
        if self.is_low:
            lower_session()

    def has_passed(self, status):
        with open(self.log, "rb") as it:
            it.seek(self.began)
            said = it.read()
        if self.verb == "run":
            return b"rt: running out/" in said  # its status is that of the program
        if self.verb == MUST_FAIL:
            return True  # what it says of each edit is judged later
        if self.verb == "fmt":
            return status == 0 and not re.search(rb"rt: formatted |cannot be applied", said)
        return status == 0

    def poll(self):
        """Returns whether it has ended, and begins the next step where one has passed."""
        ended, status, used = os.wait4(self.process.pid, os.WNOHANG)
        if not ended:
            return False
        self.process.returncode = status
        self.seconds += used.ru_utime + used.ru_stime
        has_passed = self.has_passed(status)
        if has_passed and self.steps:
            self.begin()
            return False
        self.status = 0 if has_passed else 1
        return True

    def kill(self):
        if self.process.returncode is None:
            os.killpg(self.process.pid, signal.SIGKILL)

    def last_lines(self, count=12):
        """The last lines of its log, without those that count what was loaded."""
        lines = read(self.log).decode(errors="replace").rstrip().split("\n")
        told = [it for it in lines if not re.match(r"(axioms|logic) |\w+ \w+: modules loaded=", it)]
        return told[-count:]

    def unproved(self):
        return re.findall(r"(?m)^fn \S+: (?:not proved|no proof).*", read(self.log).decode())


def end_all(runs):
    """Ends these runs with all that they have started, and waits until it has ended."""
    for it in runs:
        it.kill()
    deadline = time.monotonic() + 20
    while time.monotonic() < deadline:
        try:
            if os.waitpid(-1, os.WNOHANG) == (0, 0):
                time.sleep(0.02)
        except ChildProcessError:
            return


class Build:
    """Proves crates side by side, those first that the longest chain of others waits for."""

    def __init__(self, room, plan, seconds, at_once, goes_on=False, known=None):
        """`plan` has the steps of each crate, each crate after those below it. Where the build
        `goes_on`, a crate that fails stops only those above it. `known` has sums of sources by
        name: a crate is not tested where what its proof reads is as it was for these."""
        self.room, self.plan, self.at_once, self.goes_on = room, plan, at_once, goes_on
        self.left, self.running, self.passed, self.failed = [*plan], [], [], []
        self.kept, self.known, self.steps = [], known or {}, {}
        crates = dict.fromkeys(it for crate in plan for it in [*crate.below, crate])
        self.made = proved(crates)
        self.stamps = stamps_of([it for it in crates if it.is_library()], f"{room}/sources")
        self.seconds = {it: seconds.get(it.name) or len(read_all(it)) / 1000 for it in plan}
        self.chain = {}
        for crate in reversed([*plan]):
            above = [self.chain[it] for it in self.chain if crate in it.below]
            self.chain[crate] = self.seconds[crate] + max(above, default=0)

    def ready(self):
        lacking = {*self.left, *(it.crate for it in [*self.running, *self.failed])}
        found = [it for it in self.left if not lacking.intersection(it.below)]
        return sorted(found, key=lambda it: -self.chain[it])

    def jobs_for(self, crate, count, idle):
        """The jobs that are idle, shared with the others that are ready; or as many as the crate's
        chain needs to end with the rest of the work, if nearly so many are idle: no crate keeps all
        of its jobs at work all of the time. Each job reads all libraries, so a small crate gets
        one alone."""
        work = sum(self.seconds[it] for it in [*self.left, *(run.crate for run in self.running)])
        needed = round(self.chain[crate] * self.at_once / max(work, 1))
        jobs = max(1, idle // count, min(needed, idle + self.at_once // 4))
        return min(jobs, 1 + len(read_all(crate)) // SIZE_OF_JOB)

    def judge(self, crate):
        """Finds what is left of a crate's steps, once those below it are built, and takes it as
        done where that is nothing."""
        built = crate.proved_over(self.made, bool(self.stamps))
        sums = crate.noted()[2]
        done = ["lib", "run"] * bool(built)
        done += ["test", "fmt"] * bool(built and self.known.get(crate.name) in sums)
        self.steps[crate] = [it for it in self.plan[crate] if it[0] not in done]
        if not self.steps[crate]:
            self.left.remove(crate)
            self.kept.append(crate)
            self.made[crate.name] = built
            crate.note(crate.key(self.made), built,
                       [*(it for it in sums if it != crate.sum), crate.sum])

    def begin_ready(self):
        while new := [it for it in self.ready() if it not in self.steps]:
            for it in new:
                self.judge(it)
        ready = self.ready()
        for at, crate in enumerate(ready):
            idle = self.at_once - sum(it.jobs for it in self.running)
            if idle <= 0:
                return
            jobs = self.jobs_for(crate, len(ready) - at, idle)
            self.left.remove(crate)
            self.running.append(Run(self.room, crate, self.steps[crate], jobs, self.stamps))

    def collect(self):
        for run in [*self.running]:
            if run.poll():
                self.running.remove(run)
                run.space.give_back()
                (self.failed if run.status else self.passed).append(run)
                if not run.status:
                    self.note(run)

    def note(self, run):
        """Notes what a crate is proved from. Where `rt` gives a library another sum than was found,
        none is given one from then on, and so each crate above is proved again."""
        crate = run.crate
        if run.builds and crate.stamp() != self.stamps.get(crate.name):
            self.stamps = {}
        self.made[crate.name] = crate.made()
        if self.made[crate.name]:
            crate.note(crate.key(self.made), self.made[crate.name], [crate.sum])

    def count(self):
        """How many crates of the plan are done."""
        return len(self.passed) + len(self.kept)

    def run(self, show):
        """Runs to the end, or until a crate has failed, unless the build goes on."""
        SYSTEM.prctl(PR_SET_CHILD_SUBREAPER, 1)
        try:
            while self.running or self.ready():
                self.begin_ready()
                show(self.count())
                Stop.pause(0.1)
                self.collect()
                if self.failed and not self.goes_on:
                    break
            show(self.count())
        finally:
            end_all(self.running)
            SYSTEM.prctl(PR_SET_CHILD_SUBREAPER, 0)
            for it in self.running:
                it.space.give_back()


def read_all(crate):
    parts = (f"{crate.folder}/{part}" for part in ("src", "specs", "proofs"))
    return b"".join(read(file) for part in parts for file in files_of(part))


def take_back(room, crates):
    """Puts back what a run left in its workspaces that was killed, unless there is something
    newer."""
    for name in os.listdir(f"{room}/work") if os.path.isdir(f"{room}/work") else []:
        if name in crates and not os.path.exists(f"{crates[name].folder}/out"):
            Workspace(room, crates[name]).give_back()
    shutil.rmtree(f"{room}/work", ignore_errors=True)


def read_seconds(*files):
    """Processor seconds of crates, from lines 'NAME SECONDS'; of two files the later one counts."""
    found = {}
    for file in filter(os.path.isfile, files):
        rows = (line.partition("#")[0].split() for line in read(file).decode().splitlines())
        found.update((row[0], float(row[1])) for row in rows if len(row) == 2)
    return found


def note_seconds(room, runs):
    """Keeps what each crate cost that was proved from nothing."""
    found = read_seconds(f"{room}/seconds")
    found.update((it.crate.name, it.seconds) for it in runs if it.is_new and not it.status)
    if found:
        write(f"{room}/seconds", "".join(f"{name} {found[name]:.0f}\n" for name in sorted(found)))
