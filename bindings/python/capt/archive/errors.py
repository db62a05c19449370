"""What is said when a run can't go on."""


class ArchiveError(Exception):
    """A run ends with this message and this status: 1, or 2 if the command line is wrong."""

    def __init__(self, message: str, status: int = 1):
        super().__init__(message, status)
        self.message, self.status = message, status

    def __str__(self) -> str:
        return self.message
