# mypy: allow-untyped-calls
"""What the workers of a cluster need: this package, of one version everywhere, and the program."""

from collections.abc import Callable
from typing import Any
from weakref import WeakKeyDictionary

from distributed import Client, WorkerPlugin, get_client

from .._errors import DataError, ProgramMissing
from .._program import find, keep
from .._version import __version__

_NAME = "basket-program"
# The addresses of workers that have all that they need.
_FITTING: WeakKeyDictionary[Client, set[str]] = WeakKeyDictionary()


def client_of(client: Client | None) -> Client:
    """The client that is given, or that of this worker, or else the last one that was made.

    Raises:
        DataError: there is none, or it is asynchronous.
    """
    if client is None:
        try:
            client = get_client()
        except ValueError:
            raise DataError(
                "there is no client: make a distributed.Client, or give client="
            ) from None
    if not isinstance(client, Client) or client.asynchronous:
        raise DataError(
            "client= is a distributed.Client, and none that is asynchronous"
        )
    return client


def demand_program(client: Client) -> None:
    """Has each worker find the program, once for each address, and sends this machine's to those that
    have none.

    Raises:
        ProgramMissing: a worker lacks this package, has it in another version, or can't run the
            program that was sent. The message has the worker's name.
    """
    known = _FITTING.setdefault(client, set())
    asked = [address for address in client.nthreads() if address not in known]
    if not asked:
        return
    looked = client.run(_look(), workers=asked, on_error="return")
    _refuse(client, {address: _package_fault(told) for address, told in looked.items()})
    if any(_program_fault(told) for told in looked.values()):
        # A plugin, which the engine also gives to workers that come later.
        own = getattr(client, "register_plugin", None)
        register = own or client.register_worker_plugin
        register(_sent(find().read_bytes()), name=_NAME)
        looked = client.run(_look(), workers=asked, on_error="return")
    _refuse(client, {address: _program_fault(told) for address, told in looked.items()})
    known.update(address for address, told in looked.items() if isinstance(told, tuple))


def _refuse(client: Client, faults: dict[str, str]) -> None:
    """Raises `ProgramMissing` if there is a fault, with the worker's name."""
    workers = client.scheduler_info()["workers"]
    said = [
        f"worker {workers.get(address, {}).get('name', '')!r} at {address} {fault}"
        for address, fault in faults.items()
        if fault
    ]
    if said:
        raise ProgramMissing("; ".join(said))


def _sent(content: bytes) -> WorkerPlugin:
    """What gives the program to a worker that has none. Like `look`, it is sent as code."""

    class Sent(WorkerPlugin):
        def setup(self, worker: Any) -> None:
            try:
                from basket_miner import _program
            except ImportError:
                return
            try:
                _program.find()
            except Exception:
                _program.keep(content, worker.local_directory)

    return Sent()


def _look() -> Callable[[], tuple[str, str]]:
    """What a worker runs, and what needs nothing of this package to get there: a function within
    a function is sent as code. It returns the package's version and what is wrong with the program.
    """

    def look() -> tuple[str, str]:
        try:
            from basket_miner import __version__ as version
            from basket_miner._errors import ProgramMissing as Missing
            from basket_miner._program import find as found
        except ImportError as fault:
            return "", str(fault)
        try:
            found()
        except Missing as fault:
            return version, str(fault)
        return version, ""

    return look


def _package_fault(told: Any) -> str:
    # A worker that was lost meanwhile is the engine's to handle.
    if isinstance(told, OSError):
        return ""
    if isinstance(told, BaseException):
        return f"cannot be asked for its package: {told!r}"
    version, fault = told
    if not version:
        return f"lacks the package basket_miner ({fault})"
    is_same = version == __version__
    return "" if is_same else f"has basket_miner {version}, and this is {__version__}"


def _program_fault(told: Any) -> str:
    is_there = isinstance(told, BaseException) or not told[1]
    return "" if is_there else f"has no program: {told[1]}"
