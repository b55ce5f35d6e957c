"""Runs the tasks of a stage side by side on Dask distributed. A task is a process of tasks.py, on whatever worker."""

from __future__ import annotations

import json
import logging
import os
import subprocess
import sys
import time
from concurrent.futures import CancelledError
from types import TracebackType
from typing import Any, Optional

from commands import Failed, Refused

# Failures are told by this program itself, and its workers wait most of the time: so nothing is logged, and nothing is watched closely.
SETTINGS = {
    "LOGGING__DISTRIBUTED": "critical",
    "DISTRIBUTED__COMM__TIMEOUTS__CONNECT": "60s",
    "DISTRIBUTED__ADMIN__SYSTEM_MONITOR__INTERVAL": "5s",
    "DISTRIBUTED__ADMIN__TICK__INTERVAL": "1s",
    "DISTRIBUTED__ADMIN__TICK__LIMIT": "60s",
    "DISTRIBUTED__WORKER__MEMORY__MONITOR_INTERVAL": "5s",
    "DISTRIBUTED__WORKER__PROFILE__INTERVAL": "60s",
    "DISTRIBUTED__WORKER__PROFILE__CYCLE": "600s",
}
os.environ.update({f"DASK_{name}": os.environ.get(f"DASK_{name}", value) for name, value in SETTINGS.items()})

import dask  # noqa: E402
from distributed import Client, KilledWorker, LocalCluster, as_completed  # noqa: E402

TASKS = os.path.join(os.path.dirname(os.path.abspath(__file__)), "tasks.py")
RETRIES = 3


class Engine:
    """A cluster: that of an address, or one of this machine's processors; and a folder that all its workers see."""

    def __init__(self, work: str, address: Optional[str], workers: int, is_quiet: bool) -> None:
        dask.config.set({"distributed.scheduler.allowed-failures": RETRIES})
        logging.getLogger("asyncio").setLevel(logging.CRITICAL)  # it tells of connections that close late
        self.work, self.is_quiet, self.begun = work, is_quiet, time.monotonic()
        self.processor: dict[str, float] = {}
        room = os.path.join(work, "workers")
        self.local = None if address else LocalCluster(
            n_workers=workers, threads_per_worker=1, memory_limit=None, dashboard_address=":0", local_directory=room
        )
        self.client = Client(address or self.local)

    def __enter__(self) -> Engine:
        return self

    def __exit__(self, kind: Optional[type[BaseException]], error: Optional[BaseException], trace: Optional[TracebackType]) -> None:
        self.client.close()
        if self.local:
            self.local.close()

    def say(self, text: str) -> None:
        """Tells how far the run is."""
        if not self.is_quiet:
            print(f"[{time.monotonic() - self.begun:7.1f} s] {text}", file=sys.stderr, flush=True)

    def is_done(self, stage: str, number: int) -> bool:
        """Whether the folder of a task is there."""
        return os.path.exists(os.path.join(self.work, stage, str(number), "result.json"))

    def result(self, stage: str, number: int) -> dict[str, Any]:
        """What a task found."""
        with open(os.path.join(self.work, stage, str(number), "result.json"), encoding="utf-8") as file:
            found: dict[str, Any] = json.load(file)
        return found

    def run(self, stage: str, count: int = 1) -> list[dict[str, Any]]:
        """Runs the tasks of a stage, and gives what each found."""
        return self.run_some(stage, list(range(count)))

    def run_some(self, stage: str, numbers: list[int]) -> list[dict[str, Any]]:
        """Runs those tasks of a stage that are not done, and gives what each found."""
        count, todo = len(numbers), [number for number in numbers if not self.is_done(stage, number)]
        if len(todo) < count:
            self.say(f"{stage}: {count - len(todo)} of {count} were done before")
        futures = {self.submit([sys.executable, TASKS, stage, self.work, str(number)]): number for number in todo}
        refused = {}
        for done, future in enumerate(as_completed(futures), 1):
            printed = self.printed(future, f"{stage} {futures[future]}")
            if printed:
                refused[futures[future]] = json.loads(printed)
            elif count > 1 and (done % -(-len(todo) // 10) == 0 or done == len(todo)):
                self.say(f"{stage}: {count - len(todo) + done} of {count}")
        if refused:
            raise Refused(*refused[min(refused)])
        found = [self.result(stage, number) for number in numbers]
        self.processor[stage] = sum(each["processor"] for each in found)
        return found

    def submit(self, words: list[str]) -> Any:
        """Gives a process to the cluster, which begins it again where it fails or its worker dies."""
        return self.client.submit(subprocess.run, words, check=True, capture_output=True, pure=False, retries=RETRIES)

    def printed(self, future: Any, name: str) -> bytes:
        """What a task printed."""
        try:
            done: subprocess.CompletedProcess[bytes] = future.result()
            return done.stdout
        except subprocess.CalledProcessError as error:
            raise Failed(f"{name}: {error.stderr.decode(errors='replace')[-2000:].rstrip()}") from None
        except KilledWorker:
            raise Failed(f"{name}: its worker died {RETRIES + 1} times") from None
        except (CancelledError, OSError) as error:
            raise Failed(f"{name}: the scheduler is not there: {error!r}") from None
