"""What a user can put right."""


class Mistake(Exception):
    """A file, an option or a name that can't be used; its text is one line, and `maxcat` prints it."""
