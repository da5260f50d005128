"""The end of a call that is refused."""


class Ended(Exception):
    """A call that is refused: the status and the line."""

    def __init__(self, status, text):
        super().__init__(status, f"golden: {text}\n")
