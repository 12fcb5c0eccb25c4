"""The error of a request that the server itself answers."""


class Refused(Exception):
    """A request that no program answers: the status, a sentence that says why, and further headers."""

    def __init__(self, status, why, *headers):
        super().__init__(why)
        self.status, self.headers = status, list(headers)
