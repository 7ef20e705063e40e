"""What ends the driver."""


class Fault(Exception):
    """Why nothing can be made; the message says what to do. `status` is the one to end with."""

    def __init__(self, message: str, status: int = 2) -> None:
        super().__init__(message)
        self.status = status
