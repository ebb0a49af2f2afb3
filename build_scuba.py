#!/usr/bin/env python3
"""Builds a program of this repository for ./scuba. It prints how far it is on standard error, and nothing on standard output.

usage: build_scuba.py CRATE [WORD..]    CRATE is the program's name in crates.txt. With the words the program does nothing and ends with 0

Each library that the program stands on is proved as the gate proves it (rattle build --statements), and so is the program. Crates are proved side by side,
first the one with the longest chain of crates above it. The libraries stay in crates/NAME/out/rlib/statements, each beside a sum of all that it was made from,
and one whose sum is still the same is not proved again. (They lie below out/rlib since rt refuses source files in any other place of out/. When rt builds the
library itself it removes that folder, and the library is then proved again here.)

With SCUBA_KEEP=1 in the environment libraries are built beside these, in out/rlib/kept, and what each check proved stays in out/incremental, where rt check has its own. A change of a body
then costs that crate's changed proofs and, of each crate above, what reading takes. Such a program trusts what lies in out/: the gate proves all from nothing.

The words of rattle are those that rt gives it. Where this toolchain has other words, or crates.txt says more than names, rt run builds the program.
Exit status: 0 where the program is built, else 1."""
import fcntl
import hashlib
import os
import re
import shutil
import signal
import subprocess
import sys
import time

TOP = os.path.dirname(os.path.realpath(__file__))
PARTS = ("src", "specs", "proofs")
# The words of rattle build that are given below, as its help spells them.
WORDS = "--crate-name --extern dependency=DIR --antt-project --logic-built --links --jobs --statements --incremental --toolchain --backend"
# The processors that a group of processes may use, as a quota and a period of time.
QUOTAS = [("/sys/fs/cgroup/cpu.max",) * 2, ("/sys/fs/cgroup/cpu/cpu.cfs_quota_us", "/sys/fs/cgroup/cpu/cpu.cfs_period_us")]
# Whether what a check proved is kept for the next one.
KEEPS = os.environ.get("SCUBA_KEEP") == "1"
# What proving takes, in seconds of a processor for each byte of source.
SECONDS_A_BYTE = 0.003
# Compiling a program takes about as long as proving so many bytes of source.
COMPILES = 8000
# A second job pays only where there are so many bytes of source a job (lane_play, of 6,600 bytes, took 72 seconds with one, 91 with two, 116 with four).
BYTES_A_JOB = 7000


class OtherWords(Exception):
    """The toolchain, or crates.txt, is not as this file knows it."""


def say(text):
    print(f"scuba: {text}", file=sys.stderr, flush=True)


def text_of(file):
    try:
        with open(file, encoding="utf-8", errors="replace") as it:
            return it.read()
    except OSError:
        return ""


def sum_of(file):
    with open(file, "rb") as it:
        return hashlib.sha256(it.read()).hexdigest()


def processors():
    found = len(os.sched_getaffinity(0))
    for quota, period in QUOTAS:
        numbers = re.findall(r"-?\w+", text_of(quota) if quota == period else f"{text_of(quota)} {text_of(period)}")
        if len(numbers) == 2 and numbers[0].isdigit() and numbers[1].isdigit():
            found = min(found, max(int(numbers[0]) // int(numbers[1]), 1))
    return found


def free():
    """Returns how many bytes of memory can be taken."""
    found = [1024 * int(it) for it in re.findall(r"MemAvailable:\s+(\d+)", text_of("/proc/meminfo"))]
    most, held = text_of("/sys/fs/cgroup/memory.max").strip(), text_of("/sys/fs/cgroup/memory.current").strip()
    if most.isdigit() and held.isdigit():
        found.append(int(most) - int(held))
    return min(found, default=4_000_000_000)


class Kit:
    """The toolchain, found by its command rt."""

    def __init__(self):
        self.at = os.path.dirname(os.path.dirname(os.path.realpath(shutil.which("rt"))))
        self.rattle, self.link = f"{self.at}/bin/rattle", f"{self.at}/bin/rattle-link"
        self.libraries, self.toolchain = f"{self.at}/rlibs", f"{self.at}/toolchain"
        self.project, self.logic = f"{self.at}/rattle/logic/antt-project.json", f"{self.at}/logic_built"
        self.in_c = [f"{self.at}/c/libos_c.a", f"{self.at}/c/liblibc_c.a"]
        for it in [self.rattle, self.link, self.toolchain, self.project, self.logic, self.library("std"), *self.in_c]:
            if not os.path.exists(it):
                raise OtherWords(f"this toolchain has no {os.path.relpath(it, self.at)}")
        ran = subprocess.run([self.rattle, "build", "--help"], stdin=subprocess.DEVNULL, stdout=subprocess.PIPE, stderr=subprocess.DEVNULL, text=True)
        for it in WORDS.split():
            if not re.search(rf"(?<![\w-]){re.escape(it)}(?![\w-])", ran.stdout):
                raise OtherWords(f"rattle build has no {it} in this toolchain")
        found = os.stat(self.rattle)
        self.name = (text_of(f"{self.at}/WHAT"), text_of(f"{self.at}/KIT-ID"), found.st_size, found.st_mtime_ns)

    def library(self, name):
        return f"{self.libraries}/{name}.rlib"


def listed():
    """Returns for each line of crates.txt what stands between the name and the colon, and the libraries."""
    found = {}
    for line in text_of(f"{TOP}/crates.txt").splitlines():
        head, _, uses = line.partition("#")[0].partition(":")
        if head.strip():
            name, *more = head.split()
            found[name] = more, re.split(r"[\s,]+", uses.strip()) if uses.strip() else []
    return found


class Crate:
    def __init__(self, name, lines, kit, known):
        more, uses = lines[name]
        self.folder = f"{TOP}/crates/{name}"
        self.is_program = os.path.isfile(f"{self.folder}/src/main.rt")
        if more or not re.fullmatch(r"\w+", name) or os.path.isdir(f"{self.folder}/c") or not os.path.isdir(f"{self.folder}/src"):
            raise OtherWords(f"{name} is more than a folder crates/{name} and a line of crates.txt with its libraries")
        known[name] = None
        self.name, self.kit, self.of_kit, self.uses = name, kit, ["std"], []
        for it in uses:
            if it in lines:
                if it in known and not known[it]:
                    raise OtherWords(f"{it} stands on itself")
                self.uses.append(known.get(it) or Crate(it, lines, kit, known))
            elif os.path.isdir(kit.library(it)):
                self.of_kit.append(it)
            else:
                raise OtherWords(f"{it}, which {name} uses, is no line of crates.txt and no library of the toolchain")
        self.below = []
        for it in self.uses:
            self.below += [under for under in [*it.below, it] if under not in self.below]
        self.kept = f"{self.folder}/out/rlib/{'kept' if KEEPS else 'statements'}"
        self.rlib, self.sum, self.log = f"{self.kept}/{name}.rlib", f"{self.kept}/sum", f"{self.folder}/out/build.log"
        self.program = f"{self.folder}/out/{name}"
        if self.is_program:
            self.sum = f"{self.program}.{'kept' if KEEPS else 'sum'}"
        self.measure()
        known[name] = self

    def files(self):
        for part in PARTS:
            for at, folders, names in os.walk(f"{self.folder}/{part}"):
                folders.sort()
                yield from (f"{at}/{it}" for it in sorted(names))

    def measure(self):
        """Finds how much there is to prove, in bytes of source: that tells the time best (3 seconds for 1,000 bytes). And the memory that it takes."""
        self.weight, lines = 3000 + COMPILES * self.is_program, 0
        for file in self.files():
            with open(file, "rb") as it:
                text = it.read()
            inside = os.path.relpath(file, self.folder)
            if inside.startswith("src/") and "test" not in inside:
                self.weight += len(text)
            lines += text.count(b"\n") * (5 if file.endswith(".rt") else 1)
        loaded = [f"{self.kit.library(it)}/toolchain/checked.a" for it in {*self.of_kit[1:], *[it for under in self.below for it in under.of_kit[1:]]}]
        self.lines = lines
        self.memory = 1_000_000_000 + 200_000 * lines + 16_000 * sum(it.lines for it in self.below)
        self.memory += min(5 * sum(os.path.getsize(it) for it in loaded if os.path.isfile(it)), 2_500_000_000)

    def needs(self, jobs):
        """Returns the bytes of memory that a proof takes. (Half of what rt plans for was the most ever seen of one job.)"""
        return self.memory * (0.5 + 0.15 * (jobs - 1))

    def made_from(self):
        """Returns a sum of all that the crate is made from: its files, and the libraries below it as they were built."""
        found = hashlib.sha256(repr((self.kit.name, self.name, self.of_kit, [it.name for it in self.uses])).encode())
        for file in self.files():
            found.update(repr((os.path.relpath(file, self.folder), sum_of(file))).encode(errors="surrogateescape"))
        # (an rlib's format holds the sum of its files)
        found.update(repr([(it.name, sum_of(f"{it.rlib}/format")) for it in self.below]).encode())
        return found.hexdigest()

    def is_built(self):
        """Returns whether what stands here was made from the files as they are now."""
        try:
            return os.path.isfile(self.sum) and text_of(self.sum) == self.whole(self.made_from())
        except OSError:
            return False

    def whole(self, made_from):
        return f"{made_from} {sum_of(self.program if self.is_program else f'{self.rlib}/format')}\n"

    def commands(self, jobs):
        """Returns the commands that prove and build the crate in its folder, with the words that rt gives them."""
        kit, words = self.kit, ["--crate-name", self.name, "src/main.rt" if self.is_program else "src/lib.rt"]
        for it in self.of_kit:
            words += ["--extern", f"{it}={kit.library(it)}"]
        words += ["-L", f"dependency={kit.libraries}"]
        for it in self.uses:
            words += ["--extern", f"{it.name}={it.rlib}"]
        for it in self.below:
            words += ["-L", f"dependency={it.kept}"]
        words += ["--antt-project", kit.project, "--logic-built", kit.logic, "--jobs", str(jobs), "--links", f"{self.name}="]
        words += ["--incremental", f"{self.folder}/out/incremental"] if KEEPS else []
        if not self.is_program:
            return [[kit.rattle, "build", *words, *([] if KEEPS else ["--statements"]), "-o", self.rlib]]
        words += ["--toolchain", kit.toolchain, "--backend", "llvm", "-o", f"{self.program}.o"]
        links = ["--target", "x86_64-unknown-linux-gnu", "--toolchain", kit.toolchain, "-o", f"{self.program}.new", f"{self.program}.o", *kit.in_c]
        return [[kit.rattle, "build", *words], [kit.link, *links]]


class Guard:
    """The group of processes that the commands run in. It ends when this process ends, however that comes."""

    def __init__(self):
        ends, self.held = os.pipe()
        self.shell = subprocess.Popen(["sh", "-c", "read _; kill -9 0"], stdin=ends, preexec_fn=os.setpgrp)
        os.close(ends)

    def start(self, words, folder, log, rank):
        def join():
            os.setpgid(0, self.shell.pid)
            # The processors go to the crate that most others wait for, and the rest takes what it leaves.
            os.nice(min(5 * rank, 15))

        with open(log, "ab") as out:
            return subprocess.Popen(words, cwd=folder, stdin=subprocess.DEVNULL, stdout=out, stderr=out, preexec_fn=join)

    def end(self):
        os.close(self.held)
        self.shell.wait()


class Run:
    """A crate that is being built."""

    def __init__(self, crate, jobs, rank, guard):
        self.crate, self.jobs, self.rank, self.guard = crate, jobs, rank, guard
        self.made_from, self.commands = crate.made_from(), crate.commands(jobs)
        os.makedirs(f"{crate.folder}/out" if crate.is_program else crate.kept, exist_ok=True)
        for it in (crate.sum, crate.log):
            if os.path.exists(it):
                os.remove(it)
        self.next()

    def next(self):
        self.process = self.guard.start(self.commands.pop(0), self.crate.folder, self.crate.log, self.rank)

    def ended(self):
        """Returns whether the crate is built, or None while it is not. Raises Failed."""
        status, crate = self.process.poll(), self.crate
        if status is None:
            return None
        if status == -signal.SIGKILL and self.jobs > 1:
            say(f"{crate.name} was killed, most likely for want of memory: once more, in one process")
            self.jobs, self.commands = 1, crate.commands(1)
        elif status == 2:
            raise OtherWords(f"the toolchain did not take what it was told for {crate.name} (see {crate.log})")
        elif status:
            raise Failed(crate, status)
        if self.commands:
            self.next()
            return None
        if not os.path.isfile(f"{crate.program}.new" if crate.is_program else f"{crate.rlib}/format"):
            raise OtherWords(f"the toolchain left nothing for {crate.name} where it was told to (see {crate.log})")
        if crate.is_program:
            os.replace(f"{crate.program}.new", crate.program)
        # (a crate whose files changed meanwhile is built again next time)
        if crate.made_from() == self.made_from:
            with open(crate.sum, "w", encoding="utf-8") as it:
                it.write(crate.whole(self.made_from))
        return True


class Failed(Exception):
    def __init__(self, crate, status):
        super().__init__(crate.name)
        self.crate, self.status = crate, status


class Progress:
    """Tells how far a build is: on a terminal in one line that is written over each second, elsewhere in a line a minute."""

    def __init__(self, crates, left, longest, began):
        """longest: the weight of the longest chain of what is left."""
        self.crates, self.began, self.told = crates, began, 0
        self.whole, self.is_terminal = sum(it.weight for it in left), sys.stderr.isatty()
        # (by a simulation with measured costs, for two and four processors, and for both programs)
        self.expected = SECONDS_A_BYTE * (0.75 * self.whole / processors() + 0.3 * longest)
        name = crates[-1].name
        if any(os.path.isfile(it.sum) for it in crates):
            say(f"proving and building {name}: at most {len(left)} of its {len(crates)} crates, those that changed")
        else:
            say(f"proving and building {name}, {len(crates)} crates; the first time takes some {self.minutes(self.expected)} with {processors()} processors")

    @staticmethod
    def minutes(seconds):
        count = max(round(seconds / 60), 1)
        return f"{count} minute{'s' * (count > 1)}"

    def left(self, share, spent):
        """Returns about how many seconds are left: by what was expected at first, and later by what was seen."""
        return (1 - share) * (spent / share if share > 0.2 else max(self.expected, spent))

    def tell(self, built, running, left):
        now = time.time()
        if now - self.told < (1 if self.is_terminal else 60) or not running:
            return
        self.told, spent = now, now - self.began
        undone = sum(it.weight for it in left) + sum(run.crate.weight for run in running) / 2
        share = (self.whole - undone) / self.whole
        text = f"{100 * share:.0f} %, some {self.minutes(self.left(share, spent))} left; {len(built)} of {len(self.crates)} crates are proved, now {', '.join(run.crate.name for run in running)}"
        if self.is_terminal:
            width = shutil.get_terminal_size().columns
            print(f"\r\033[Kscuba: {text}"[: width + 4], end="", file=sys.stderr, flush=True)
        else:
            say(text)

    def end(self):
        if self.is_terminal:
            print("\r\033[K", end="", file=sys.stderr, flush=True)


class Build:
    """Crates that are built side by side, lowest first, those with the longest chain of crates above them before others."""

    def __init__(self, crates, built, guard):
        self.built, self.guard, self.running, self.stale = built, guard, [], set()
        self.behind = {}
        for it in reversed(crates):
            self.behind[it] = it.weight + max([self.behind[above] for above in self.behind if it in above.uses], default=0)
        self.left = sorted((it for it in crates if it not in built), key=lambda it: -self.behind[it])
        self.memory, self.at_once = 0.85 * free(), processors()

    def longest(self):
        """Returns the weight of the longest chain of what is left."""
        return max((self.behind[it] for it in self.left), default=0)

    def most_jobs(self, crate, others):
        """Returns how many jobs the crate may have that the most waits for: the processors that the others, which are ready, and those that run
        leave idle while it is proved. (Each job reads again what the others have read: four of them take twice the processor seconds of one.)"""
        beside = sum(it.weight for it in others) + sum(run.crate.weight for run in self.running) / 2
        taken = min(round(beside / crate.weight), len(others) + len(self.running))
        return max(min(min(self.at_once, 8) - taken, crate.weight // BYTES_A_JOB), 1)

    def start_ready(self):
        """Starts what stands on built crates alone, as far as there are processors and memory."""
        ready = [it for it in self.left if all(under in self.built for under in it.below)]
        for it in ready:
            if it not in self.stale and it.is_built():
                # (a library below changed, and came out the same)
                self.left.remove(it)
                self.built.append(it)
                continue
            self.stale.add(it)
            room = self.memory - sum(run.crate.needs(run.jobs) for run in self.running)
            rank = sum(self.behind[run.crate] > self.behind[it] for run in self.running)
            most = 1 if rank else self.most_jobs(it, [other for other in ready if other is not it and other in self.left])
            jobs = [jobs for jobs in range(most, 0, -1) if it.needs(jobs) <= room]
            if len(self.running) < self.at_once and (jobs or not self.running):
                self.left.remove(it)
                self.running.append(Run(it, jobs[0] if jobs else 1, rank, self.guard))

    def take_ended(self):
        for run in [it for it in self.running if it.ended()]:
            self.running.remove(run)
            self.built.append(run.crate)


def side_by_side(crates, began):
    """Builds the crates, lowest first, that are not built yet, and returns whether there were any."""
    built = []
    for it in crates:
        if all(under in built for under in it.below) and it.is_built():
            built.append(it)
    if len(built) == len(crates):
        return False
    guard = Guard()
    build = Build(crates, built, guard)
    progress = Progress(crates, build.left, build.longest(), began)
    try:
        while build.left or build.running:
            build.start_ready()
            progress.tell(build.built, build.running, build.left)
            time.sleep(0.05)
            build.take_ended()
    finally:
        guard.end()
        progress.end()
    return True


def tell_end(log):
    lines = text_of(log).splitlines()[-20:]
    print(*lines, sep="\n", file=sys.stderr, flush=True)


def by_rt(name, words, began):
    """Has rt run build the program, one library after another."""
    folder, told = f"{TOP}/crates/{name}", set()
    log = f"{folder}/out/build.log"
    os.makedirs(f"{folder}/out", exist_ok=True)
    if os.path.exists(log):
        os.remove(log)
    guard = Guard()
    ran = guard.start(["rt", "run", "--", *words], folder, log, 0)
    while ran.poll() is None:
        time.sleep(0.5)
        for it in sorted(os.listdir(f"{TOP}/crates")):
            stamp = f"{TOP}/crates/{it}/out/rlib/stamp"
            if it not in told and os.path.isfile(stamp) and os.stat(stamp).st_mtime > began:
                told.add(it)
                say(f"built by rt: {len(told)}, {it} ({time.time() - began:.0f} seconds)")
    guard.end()
    if ran.returncode or not os.path.isfile(f"{folder}/out/{name}"):
        tell_end(log)
        say(f"the build failed; the whole of what it printed is in {log}")
        return 1
    return 0


def rt_has_built(crates):
    """Returns whether rt keeps each library, newer than its files and those of the libraries below it, so that rt run builds the program alone."""
    newest = {}
    try:
        for it in crates:
            newest[it] = max([os.stat(file).st_mtime for file in it.files()] + [newest[under] for under in it.uses])
            if not it.is_program and os.stat(f"{it.folder}/out/rlib/stamp").st_mtime < newest[it]:
                return False
    except (OSError, ValueError):
        return False
    return True


def lock(folders, what):
    """Waits until no other build works in these folders, and returns what keeps others out until it is closed, and whether it had to wait."""
    held, has_waited = [os.open(it, os.O_RDONLY) for it in sorted({os.path.realpath(it) for it in folders})], False
    for it in held:
        try:
            fcntl.flock(it, fcntl.LOCK_EX | fcntl.LOCK_NB)
        except BlockingIOError:
            if not has_waited:
                say(f"waiting for {what}")
            has_waited = True
            fcntl.flock(it, fcntl.LOCK_EX)
        except OSError:
            # (some file systems have no locks)
            pass
    return held, has_waited


def is_current(program):
    """Returns whether no source is newer than the program, as ./scuba asks it too."""
    if not os.access(program, os.X_OK):
        return False
    made, files = os.stat(program).st_mtime, [f"{TOP}/crates.txt"]
    for at, folders, names in os.walk(f"{TOP}/crates"):
        folders[:] = [it for it in folders if it not in ("out", "must-fail")]
        files += [f"{at}/{it}" for it in names]
    return all(os.stat(it).st_mtime <= made for it in files)


def main(name, *words):
    program = f"{TOP}/crates/{name}/out/{name}"
    if not shutil.which("rt"):
        say("the program has to be built, and rt, the command of the Rattle toolchain, is not on the PATH")
        return 1
    _launchers, has_waited = lock([TOP], "another ./scuba in this copy of the repository to end its build")
    held, began = [], time.time()
    try:
        known, lines = {}, listed()
        if name not in lines:
            raise OtherWords(f"crates.txt has no line for {name}")
        top = Crate(name, lines, Kit(), known)
        crates = [*top.below, top]
        # These are rt's own locks.
        held, waited_for_rt = lock([it.folder for it in crates], "an rt command that works in these crates to end")
        if (has_waited or waited_for_rt) and is_current(program):
            return 0
        began = time.time()
        if rt_has_built(crates) and not all(it.is_built() for it in top.below):
            raise OtherWords("rt keeps each library that the program stands on, so that the program alone is left")
        has_built, status = side_by_side(crates, began), 0
    except Failed as error:
        tell_end(error.crate.log)
        say(f"{error.crate.name} was not built (status {error.status}); the whole of what it printed is in {error.crate.log}")
        return 1
    except OtherWords as error:
        say(f"{error}: rt run builds the program, one crate after another (from nothing it takes some 40 minutes)")
        for it in held:
            os.close(it)
        has_built, status = True, by_rt(name, words, began)
    if not status:
        # A source that changed since then is newer than the program.
        os.utime(program, (began, began))
        say(f"built in {time.time() - began:.0f} seconds" if has_built else "nothing that the program is made from has changed")
    return status


if __name__ == "__main__":
    # (with its own handler Python would end without the guard's word)
    signal.signal(signal.SIGTERM, signal.SIG_DFL)
    try:
        sys.exit(main(*sys.argv[1:]))
    except OSError as error:
        say(f"the program was not built: {error}")
        sys.exit(1)
    except KeyboardInterrupt:
        sys.exit(130)
