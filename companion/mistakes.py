"""What a user is told in one sentence, with status 2."""


class Mistake(Exception):
    """A sentence that says what is wrong and how to mend it."""
