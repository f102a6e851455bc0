"""Why nothing is made."""


class Fault(Exception):
    """Lines for standard error, and a status."""

    def __init__(self, status, *lines):
        super().__init__(*lines)
        self.status, self.lines = status, lines
