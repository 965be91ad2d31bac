"""What can go wrong, each with the exit status that it ends a command with."""

# The exit status of a command. argparse ends with 2 for a wrong command line.
DONE = 0
NOT_TAKEN = 1
UNUSABLE = 3
DISAGREES = 4
INTERRUPTED = 130


class OfficeError(Exception):
    """An error that is told to the user in one or more plain sentences."""

    status = UNUSABLE


class InputError(OfficeError):
    """What the user gave is not taken: a refused line, an unknown name, a line in the wrong place."""

    status = NOT_TAKEN


class LibraryError(OfficeError):
    """The library is missing, or is not one that this package can use."""


class StoreError(OfficeError):
    """The store is missing, damaged, in use, or cannot be written."""


class OutputError(OfficeError):
    """The answer could not be written out."""


class DisagreementError(OfficeError):
    """What the companion worked out is not what the library shows, so nothing of it is told."""

    status = DISAGREES
