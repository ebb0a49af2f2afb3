"""Copies of a folder's files in memory, over which the program can run: the folder itself stays as it is.

A copy is a file without a name (`memfd_create`), which the program finds by a link in a folder of links. So a tool that
is killed leaves no copy behind, and the size of /dev/shm is no limit.
"""

import os
import resource
import threading
import time

from .program import Fault

THREADS = 4


class Copies:
    """A folder of links, `path`, and the files behind them. A program that inherits `files` may run over the folder."""

    def __init__(self):
        self.path, self.files, self.made = links_folder(), [], {}

    def __enter__(self):
        return self

    def __exit__(self, *_):
        self.close()

    def close(self):
        for file in self.files:
            os.close(file)
        # The program makes files there too, of leaves that have none.
        for name in os.listdir(self.path):
            os.unlink(os.path.join(self.path, name))
        os.rmdir(self.path)

    def add(self, name):
        """An empty file with this name, and its descriptor."""
        file = os.memfd_create(name)
        self.files.append(file)
        # The program inherits the descriptor under the same number.
        os.symlink("/proc/self/fd/{}".format(file), os.path.join(self.path, name))
        self.made[name] = file
        return file

    def place(self, name):
        """A path by which this process opens the file with this name."""
        return "/proc/self/fd/{}".format(self.made[name])

    def fill(self, sources):
        """Copies a file under each name: `sources` has pairs of a name and a descriptor."""
        sizes = {source: os.fstat(source).st_size for _, source in sources}
        need_memory(sum(sizes.values()))
        need_descriptors(len(sources))
        # The largest first, so that threads end at about one time.
        tasks = sorted(((sizes[source], source, self.add(name)) for name, source in sources), reverse=True)
        faults = []
        threads = [threading.Thread(target=copy_all, args=(tasks, faults)) for _ in range(min(THREADS, len(tasks)))]
        tasks.reverse()
        try:
            for thread in threads:
                thread.start()
            for thread in threads:
                thread.join()
        finally:
            # A signal may end the wait: no thread may write to a file that is closed then.
            tasks.clear()
            for thread in threads:
                thread.join()
        if faults:
            raise Fault("the copy in memory failed: {}".format(faults[0].strerror))


def links_folder():
    """A new folder that this user alone may enter."""
    places = [place for place in (os.environ.get("TMPDIR"), "/tmp", "/dev/shm", "/var/tmp") if place]
    for place in places:
        path = os.path.join(os.path.abspath(place), "scuba-copy.{}.{:x}".format(os.getpid(), time.time_ns()))
        try:
            os.mkdir(path, 0o700)
            return path
        except OSError:
            pass
    raise Fault("no folder can be made in any of {}".format(", ".join(places)))


def copy_all(tasks, faults):
    """Does tasks until none is left; another thread may take some."""
    while True:
        try:
            size, source, target = tasks.pop()
        except IndexError:
            return
        try:
            at = 0
            while at < size:
                copied = os.sendfile(target, source, at, size - at)
                if not copied:
                    break
                at += copied
        except OSError as error:
            faults.append(error)
            return


def need_memory(size):
    """Refuses a copy for which the machine has no memory: without it the system would end this process, or another."""
    with open("/proc/meminfo", encoding="ascii") as lines:
        found = [int(line.split()[1]) << 10 for line in lines if line.startswith("MemAvailable:")]
    if found and size > found[0]:
        sizes = "{:.0f} MB of memory, and the machine has {:.0f} MB".format(size / 1e6, found[0] / 1e6)
        raise Fault("a copy takes {}".format(sizes))


def need_descriptors(count):
    """Each copy is open here and in the program, which opens it once more."""
    soft, hard = resource.getrlimit(resource.RLIMIT_NOFILE)
    needed = 4 * count + 256
    if soft != resource.RLIM_INFINITY and soft < needed:
        most = needed if hard == resource.RLIM_INFINITY else min(needed, hard)
        resource.setrlimit(resource.RLIMIT_NOFILE, (most, hard))
