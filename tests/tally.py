"""The count of checks that passed and failed, which the scripts in Python here print in the end."""


class Tally:
    def __init__(self):
        self.passed = self.failed = 0

    def check(self, what, got, wanted):
        """Notes whether something is as it is wanted."""
        if got == wanted:
            self.passed += 1
        else:
            self.failed += 1
            print(f"failed: {what}\n  wanted: {wanted}\n  got:    {got}")

    def end(self):
        """Prints the count, and returns the exit status."""
        print(f"{self.passed} passed, {self.failed} failed")
        return 1 if self.failed else 0
