"""A Dask scheduler and workers on this machine, as processes of their own, for `.ci/cluster/run` and `bench/cluster`."""
import re
import subprocess
import time
from pathlib import Path

PYTHON, DASK = "/usr/bin/python3", "/usr/bin/dask"
JOB = Path(__file__).resolve().parents[1] / "examples" / "cluster" / "dask-job"
SECONDS = 60


def is_installed():
    """Whether Debian's packages of Dask are there."""
    try:
        found = subprocess.run([PYTHON, "-c", "import distributed"], capture_output=True, check=False).returncode == 0
    except OSError:
        found = False
    return found and Path(DASK).exists()


class Loopback:
    """A scheduler and its workers, each of one thread. All are ended at the end."""

    def __init__(self, work, workers):
        self.work, self.started, self.workers = work, [], []
        said = self.start("scheduler", "--port", "0")
        self.address = self.waited_for(said, r"Scheduler at: *(tcp://\S+)")
        for _ in range(workers):
            self.add_worker()

    def __enter__(self):
        return self

    def __exit__(self, *_):
        for process in self.started:
            process.kill()
            process.wait()

    def start(self, kind, *words):
        """Starts a process of Dask. It gives the file with what the process says."""
        said = self.work / f"{kind}-{len(self.started)}.said"
        run = [DASK, kind, *words, "--host", "127.0.0.1", "--no-dashboard"]
        with open(said, "wb") as stderr:
            self.started.append(subprocess.Popen(run, cwd=self.work, stdout=stderr, stderr=stderr))
        return said

    def waited_for(self, said, pattern):
        end = time.monotonic() + SECONDS
        while time.monotonic() < end:
            found = re.search(pattern, said.read_text(errors="replace"))
            if found:
                return found[1]
            time.sleep(0.1)
        raise TimeoutError(f"{said.name} does not say {pattern}: {said.read_text(errors='replace')[-500:]}")

    def add_worker(self):
        said = self.start("worker", self.address, "--nthreads", "1", "--no-nanny", "--local-directory", str(self.work))
        self.workers.append(self.started[-1])
        self.waited_for(said, r"(Registered to)")

    def kill_worker(self, number=None):
        """Kills a worker of this process number, or the first one, so that it can say nothing more."""
        worker = next(it for it in self.workers if number in (None, it.pid))
        worker.kill()
        worker.wait()
        self.workers.remove(worker)

    def job(self, flags, *words):
        """Starts the job at this scheduler."""
        run = [PYTHON, JOB, *flags, self.address, *map(str, words)]
        self.started.append(subprocess.Popen(run, stdout=subprocess.PIPE, stderr=subprocess.PIPE, text=True))
        return self.started[-1]
