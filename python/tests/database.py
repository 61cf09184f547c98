"""A PostgreSQL server of the tests' own, on a socket in a folder of its own."""

import contextlib
import os
import pwd
import shutil
import signal
import subprocess
import tempfile
import time
from collections.abc import Iterator
from pathlib import Path

SECONDS = 60


def server_folder() -> Path | None:
    """Where Debian has the server's programs, which are not on the path; nothing without a server."""
    found = sorted(Path("/usr/lib/postgresql").glob("*/bin/initdb"))
    return found[-1].parent if found else None


@contextlib.contextmanager
def served(programs: Path) -> Iterator[dict[str, str]]:
    """The variables of the environment by which psql finds an empty database."""
    # The name of a socket is short.
    with tempfile.TemporaryDirectory(prefix="basket-sql-", dir="/tmp") as name:
        folder = Path(name)
        own = _as_server(folder)
        data = str(folder / "data")
        words = ["-D", data, "-U", "shop", "--auth=trust", "--no-sync", "--no-locale"]
        made = [*own, str(programs / "initdb"), *words, "--encoding=UTF8"]
        subprocess.run(made, check=True, cwd=folder, stdout=subprocess.DEVNULL)
        words = ["-D", data, "-k", name, "-c", "listen_addresses=", "-c", "fsync=off"]
        with open(folder / "log", "wb") as log, subprocess.Popen(
            [*own, str(programs / "postgres"), *words], cwd=folder, stderr=log
        ) as server:
            try:
                _wait(programs, name, server)
                yield {"PGHOST": name, "PGUSER": "shop", "PGDATABASE": "postgres"}
            finally:
                # Ends it without waiting for clients.
                server.send_signal(signal.SIGINT)


def _as_server(folder: Path) -> list[str]:
    """The words before a command that make it end with this process, and not run as root."""
    words = ["setpriv", "--pdeathsig", "INT"]
    if os.getuid() == 0:
        account = pwd.getpwnam("postgres")
        shutil.chown(folder, account.pw_uid, account.pw_gid)
        words += [f"--reuid={account.pw_uid}", f"--regid={account.pw_gid}"]
        words += ["--clear-groups"]
    return [*words, "--"]


def _wait(programs: Path, name: str, server: subprocess.Popen[bytes]) -> None:
    until = time.monotonic() + SECONDS
    while subprocess.run([programs / "pg_isready", "-q", "-h", name]).returncode:
        if server.poll() is not None or time.monotonic() > until:
            raise RuntimeError(Path(name, "log").read_text())
        time.sleep(0.05)
