"""Points on the workers of a Dask scheduler.

Dask is imported here alone. What a worker does is in `worker.py`.
"""
import ipaddress
import logging
import os
import secrets
import socket
import sys
from concurrent.futures import CancelledError
from types import ModuleType
from typing import Any
from urllib.parse import urlsplit

from .points import NOTHING, Answer, Task
from .programs import Programs
from .refusal import Refusal
from .try_words import Address
from .worker import answer_on_worker

RETRIES = 3
PACKAGE = "python3-distributed"


def distributed() -> ModuleType:
    """Dask's package for several machines."""
    try:
        import distributed as package
    except ImportError:
        raise Refusal(f"--scheduler needs Dask: Debian's package {PACKAGE}, for /usr/bin/python3") from None
    return package


def is_encrypted(address: Address) -> bool:
    return urlsplit(address.url).scheme == "tls"


def refuse_unsafe(address: Address) -> None:
    """Refuses an address to which everybody on the way could listen, or talk."""
    parts = urlsplit(address.url)
    if parts.scheme not in ("tcp", "tls") or not parts.hostname or port_of(address.url) is None:
        raise Refusal(f"--scheduler {address.url}: wanted is tcp://HOST:PORT or tls://HOST:PORT")
    refuse_files(address)
    if not is_encrypted(address) and not address.is_insecure and not is_this_machine(parts.hostname):
        raise Refusal(f"{parts.hostname} is another machine, and {address.url} is not encrypted; "
                      "wanted is tls:// with --tls-ca-file, or --insecure")


def refuse_files(address: Address) -> None:
    """Refuses TLS with a file too few, and files without TLS."""
    files = {"--tls-ca-file": address.ca_file, "--tls-cert": address.certificate, "--tls-key": address.key}
    if not is_encrypted(address):
        if any(files.values()):
            raise Refusal("the options --tls-.. need an address that begins with tls://")
        return
    for option, path in files.items():
        if path is None:
            raise Refusal(f"--scheduler {address.url}: {option} is missing")
        if not os.access(path, os.R_OK):
            raise Refusal(f"{option}: {path} can't be read")


def port_of(url: str) -> int | None:
    try:
        return urlsplit(url).port
    except ValueError:
        return None


def is_this_machine(host: str) -> bool:
    """Whether all addresses of a host are loopback addresses."""
    try:
        found = socket.getaddrinfo(host, None)
    except OSError:
        return False
    return all(ipaddress.ip_address(each[4][0].partition("%")[0]).is_loopback for each in found)


class RemotePool:
    """Hands points to a Dask scheduler. A point whose worker dies is begun again elsewhere."""

    def __init__(self, address: Address, task: Task, programs: Programs, most: int) -> None:
        refuse_unsafe(address)
        self.package = distributed()
        self.task, self.most = task, most
        self.digests = tuple((name, program.digest) for name, program in sorted(programs.items()))
        logging.disable(logging.CRITICAL)
        self.client = self.connected(address)
        self.name = f"aps-study-{secrets.token_hex(8)}"
        self.print_waiting()
        self.ended = self.package.as_completed(loop=self.client.loop)
        self.numbers: dict[str, int] = {}

    def connected(self, address: Address) -> Any:
        try:
            return self.package.Client(address.url, security=self.security(address), timeout=10, set_as_default=False)
        except (OSError, ValueError, TypeError) as error:
            raise Refusal(f"no Dask scheduler answers at {address.url}: {error}") from None

    def security(self, address: Address) -> Any:
        if not is_encrypted(address):
            return None
        return self.package.Security(
            tls_ca_file=address.ca_file, tls_client_cert=address.certificate, tls_client_key=address.key,
            require_encryption=True)

    def print_waiting(self) -> None:
        """Says that nothing happens before a worker is there."""
        if not self.client.scheduler_info()["workers"]:
            print("apstry: the scheduler has no workers yet; waiting for one", file=sys.stderr)

    def submit(self, number: int, text: str) -> None:
        future = self.client.submit(
            answer_on_worker, text, self.task, self.digests, key=f"{self.name}-{number}",
            retries=RETRIES, pure=False)
        self.numbers[future.key] = number
        self.ended.add(future)

    def next(self) -> tuple[int, Answer]:
        future = next(self.ended)
        try:
            return self.numbers.pop(future.key), self.result(future)
        finally:
            future.release()

    def result(self, future: Any) -> Answer:
        try:
            result = future.result()
        except ModuleNotFoundError as error:
            raise Refusal(f"a worker has no module {error.name}; start it with PYTHONPATH=CHECKOUT/tools") from None
        except self.package.KilledWorker:
            return Answer("error several workers died at this point", (NOTHING,) * len(self.task.measures))
        except (CancelledError, self.package.client.CancelledError):
            raise Refusal("the Dask scheduler is gone") from None
        except Exception as error:
            raise Refusal(f"a worker failed: {type(error).__name__}: {error}") from None
        if isinstance(result, Refusal):
            raise result
        return result

    def close(self) -> None:
        self.client.close()
