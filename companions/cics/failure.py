"""Why a command ends, as a line and a status."""
FAILED = 3  # the status where a file can't be read or written, or a program isn't there


class Failure(Exception):
    """Why a command ends, as a line, and its status."""

    def __init__(self, line: str, status: int = FAILED) -> None:
        super().__init__(line)
        self.status = status


def why_of(why: Exception) -> str:
    return (why.strerror if isinstance(why, OSError) else None) or str(why)
