"""Counts checks and prints one line for each that fails."""


class Tally:
    """The numbers of passed and failed checks so far."""

    def __init__(self) -> None:
        self.passed = 0
        self.failed = 0

    def true(self, name: str, condition: bool) -> None:
        """Count a check that passes if the condition holds."""
        if condition:
            self.passed += 1
        else:
            self.failed += 1
            print(f"failed: {name}")

    def equal(self, name: str, found: object, expected: object) -> None:
        """Count a check that passes if both are equal."""
        self.true(f"{name}: found {found!r}, expected {expected!r}", found == expected)
