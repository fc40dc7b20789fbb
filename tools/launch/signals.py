"""Signals that ask a command to end, as an exception, so that what it began is ended and removed first."""
import signal

ASK_TO_END = (signal.SIGINT, signal.SIGTERM, signal.SIGHUP)
# What a shell adds to a signal's number for the status of a program that the signal ended.
OF_SIGNAL = 128


class Signalled(Exception):
    """A signal asks to end."""

    def __init__(self, number: int) -> None:
        super().__init__(number)
        self.status = OF_SIGNAL + number


def raise_signals() -> None:
    for number in ASK_TO_END:
        signal.signal(number, end)


def end(number: int, _frame: object) -> None:
    # A second one while things are being removed would leave them half removed.
    for other in ASK_TO_END:
        signal.signal(other, signal.SIG_IGN)
    raise Signalled(number)
