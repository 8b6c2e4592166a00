"""Dask's clusters: one of its own on this machine, or one that runs already; and the code that is sent to their workers."""

import logging
import os
import signal
import sys
import tempfile
import urllib.request
import warnings
import zipfile
from collections.abc import Iterator
from contextlib import contextmanager
from pathlib import Path
from typing import Any

from gasday_report.texts import Fault

from .worker import CODE

COMPANION = Path(__file__).resolve().parents[1]
PARTS = ("certificate.py", "gasday_report/*.py", "gasday_fleet/*.py")
SECONDS_TO_JOIN = 60  # until there is a worker
SECONDS_TO_ANSWER = 3  # for the dashboard
LOCAL = "127.0.0.1"
# Dask gives up a worker that isn't there so long after it ended, though it may have come back and just ended once more.
A_DAY = "1 day"


LOGGING = ("distributed", "tornado", "asyncio", "dask", "bokeh")


def silence() -> None:
    """Silences what Dask logs, which is for people who run a cluster. It gives levels and handlers of their own to loggers
    below these, so that each has to be silenced by itself."""
    there = [name for name in logging.root.manager.loggerDict if name.split(".")[0] in LOGGING]
    for name in (*LOGGING, *there):
        logger = logging.getLogger(name)
        logger.handlers = [logging.NullHandler()]
        logger.propagate = False
        logger.setLevel(logging.CRITICAL + 1)


def dashboard_of(client: Any) -> str:
    """Where a cluster's dashboard is; nothing where none is there. Without bokeh there is a page that only asks for it."""
    link = str(getattr(client, "dashboard_link", "") or "")
    try:
        with urllib.request.build_opener(urllib.request.ProxyHandler({})).open(link, timeout=SECONDS_TO_ANSWER) as page:
            return link if page.status == 200 and b"needs bokeh" not in page.read() else ""
    except (OSError, ValueError):
        return ""


def imported() -> Any:
    """Dask's distributed, where it is installed."""
    try:
        import distributed
    except ImportError:
        raise Fault(f"{sys.executable} finds no Dask: `apt-get install python3-distributed` installs it for Debian's own Python,"
                    " and --serial needs none") from None
    silence()
    warnings.filterwarnings("ignore", module="distributed")
    return distributed


@contextmanager
def quiet() -> Iterator[None]:
    """What Dask's processes print has no place among what this program tells."""
    own, before = os.dup(2), sys.stderr
    nowhere = os.open(os.devnull, os.O_WRONLY)
    os.dup2(nowhere, 2)
    os.close(nowhere)
    sys.stderr = open(own, "w", buffering=1)  # noqa: SIM115 (it is closed below)
    try:
        yield
    finally:
        os.dup2(own, 2)
        sys.stderr.close()
        sys.stderr = before


@contextmanager
def own_cluster(workers: int | None, retries: int) -> Iterator[Any]:
    """A cluster on this machine, of as many workers or one for each core. They take no notice of a Ctrl-C, so that the run ends
    in order."""
    distributed = imported()
    import dask
    with dask.config.set({"distributed.scheduler.allowed-failures": retries, "distributed.deploy.lost-worker-timeout": A_DAY}):
        before = signal.signal(signal.SIGINT, signal.SIG_IGN)
        try:
            cluster = distributed.LocalCluster(n_workers=workers, threads_per_worker=1, processes=True, host=LOCAL,
                                               dashboard_address=f"{LOCAL}:0", silence_logs=logging.CRITICAL)
        finally:
            signal.signal(signal.SIGINT, before)
        with cluster, distributed.Client(cluster) as client:
            yield client


@contextmanager
def cluster_at(address: str) -> Iterator[Any]:
    """A cluster that runs already."""
    distributed = imported()
    try:
        client = distributed.Client(address)
    except Exception as error:
        raise Fault(f"there is no cluster at {address}: {error}") from None
    with client:
        try:
            client.wait_for_workers(1, timeout=SECONDS_TO_JOIN)
        except TimeoutError:
            raise Fault(f"no worker has joined the cluster at {address} for {SECONDS_TO_JOIN} seconds") from None
        yield client


def send_code(client: Any) -> None:
    """Sends the code that workers run to all of them, and to those that join later."""
    with tempfile.TemporaryDirectory() as folder:
        path = Path(folder, f"gasday-fleet-{CODE[:16]}.zip")
        with zipfile.ZipFile(path, "w") as packed:
            for part in PARTS:
                for file in sorted(COMPANION.glob(part)):
                    packed.write(file, file.relative_to(COMPANION))
        client.upload_file(str(path))
