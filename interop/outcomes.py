"""What a check comes to: passed, skipped or FAILED, printed as one line."""


class Skipped(Exception):
    """A check that can't be made, and why."""


class Wrong(Exception):
    """What a check found to be other than it must be."""


def ensure(holds, otherwise):
    """Ends a check as failed where something doesn't hold."""
    if not holds:
        raise Wrong(otherwise)


class Report:
    """Makes checks and prints the outcome of each."""

    def __init__(self):
        self.failed = 0

    def say(self, server, what, outcome):
        print(f"{server}: {what}: {outcome}", flush=True)

    def make(self, server, what, check, *arguments):
        """Makes a check, which answers a remark or nothing."""
        try:
            remark = check(*arguments)
        except Skipped as skipped:
            self.say(server, what, f"skipped ({skipped})")
        except Exception as error:  # a check may fail in whatever way, and the next ones are made all the same
            self.failed += 1
            self.say(server, what, f"FAILED ({type(error).__name__}: {error})")
        else:
            self.say(server, what, f"passed ({remark})" if remark else "passed")
