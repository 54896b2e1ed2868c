"""Runs tests by name, a line for each, and counts them."""

import time
import traceback


class Skip(Exception):
    """Why a test can't be run here."""


class Tests:
    """How many tests passed and failed."""

    def __init__(self) -> None:
        self.passed = 0
        self.failed = 0

    def run(self, name: str, function, *arguments) -> None:
        """Run a test: it fails if it raises, and may return a note."""
        begin = time.monotonic()
        try:
            note = function(*arguments)
        except Skip as why:
            print(f"{name}: skipped: {why}", flush=True)
            return
        except Exception as error:
            self.failed += 1
            if not isinstance(error, AssertionError):
                traceback.print_exc()
            print(f"{name}: FAILED: {error}", flush=True)
            return
        self.passed += 1
        seconds = time.monotonic() - begin
        took = f" ({seconds:.0f} s)" if seconds > 5 else ""
        print(f"{name}: ok{': ' + note if note else ''}{took}", flush=True)


def same(got, wanted, of) -> None:
    """Fail if something isn't what is wanted."""
    if got != wanted:
        raise AssertionError(f"{of!r}: got {got!r}, wanted {wanted!r}")
