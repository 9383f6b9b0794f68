"""Niluppang: the proved site of a clearing hub for SEPA Instant Credit Transfers, in a Python program."""
from ._errors import (Closed, DeltaRefused, LibraryError, MessageRefused, NiluppangError, NotYours, OutOfMemory,
                      Refused, Transfer, Waits, Withheld)
from ._library import library_version
from ._site import Accepted, BytesSite, LinesTaken, Questions, Site, Snapshot, Taken
from ._version import __version__

__all__ = ["Accepted", "BytesSite", "Closed", "DeltaRefused", "LibraryError", "LinesTaken",
           "MessageRefused", "NiluppangError", "NotYours", "OutOfMemory", "Questions", "Refused", "Site", "Snapshot",
           "Taken", "Transfer", "Waits", "Withheld", "__version__", "library_version"]
