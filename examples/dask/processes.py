"""A scheduler and workers on this machine, each a process that is started as from the command line. For tests and measurements."""
import os
import signal
import subprocess
import sys
import time

from distributed import Client

HERE = os.path.dirname(os.path.abspath(__file__))
PATIENCE = 240


class Cluster:
    """It ends each process that it started, by its handle. `settings` are variables of the environment, by which Dask is configured."""

    def __init__(self, workers, folder, **settings):
        path = os.pathsep.join([HERE, *filter(None, [os.environ.get("PYTHONPATH")])])
        # If nobody ends the scheduler it ends by itself, and its workers with it.
        self.environment = os.environ | {"PYTHONPATH": path, "DASK_DISTRIBUTED__SCHEDULER__IDLE_TIMEOUT": "5 minutes"} | settings
        self.folder, self.file, self.started = str(folder), f"{folder}/scheduler.json", 0
        self.workers, self.client = [], None
        self.scheduler = self.start("scheduler", "--port", "0", "--no-show")
        try:
            self.client = Client(scheduler_file=self.file, timeout=PATIENCE)
            self.add(workers)
        except BaseException:
            self.close()
            raise

    def start(self, what, *words):
        common = ["--host", "127.0.0.1", "--scheduler-file", self.file, "--no-dashboard"]
        self.started += 1
        with open(f"{self.folder}/{what}{self.started}.log", "wb") as log:
            return subprocess.Popen(
                [sys.executable, "-m", f"distributed.cli.dask_{what}", *common, *words],
                env=self.environment,
                stdin=subprocess.DEVNULL,
                stdout=log,
                stderr=log,
            )

    def add(self, count):
        """Starts workers, and waits until the scheduler knows them."""
        wanted = len(self.known()) + count
        for _ in range(count):
            folder = f"{self.folder}/worker{self.started}"
            self.workers.append(self.start("worker", "--nthreads", "1", "--no-nanny", "--local-directory", folder))
        self.client.wait_for_workers(wanted, timeout=PATIENCE)

    def known(self):
        """The workers that the scheduler knows."""
        return self.client.scheduler_info()["workers"]

    def signal(self, which, *workers):
        for it in workers:
            it.send_signal(which)

    def kill(self, *workers):
        """Kills workers, and waits until the scheduler knows fewer."""
        wanted = len(self.known()) - len(workers)
        self.signal(signal.SIGKILL, *workers)
        for it in workers:
            it.wait()
            self.workers.remove(it)
        deadline = time.monotonic() + PATIENCE
        while len(self.known()) > wanted and time.monotonic() < deadline:
            time.sleep(0.05)

    def close(self):
        if self.client:
            self.client.close()
        for it in [*self.workers, self.scheduler]:
            it.kill()
            it.wait()

    def __enter__(self):
        return self

    def __exit__(self, *_):
        self.close()
