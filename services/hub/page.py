"""page.py: the page of the desk, and what it may do: its own script and style, and requests to its own site.

What statuses and findings mean, and what to do about them, is that of meanings.json, and what reasons mean is that of
reasons.json of the desk's tools. The page for browsers has them too (web/build).
"""
from __future__ import annotations
import base64
import hashlib
import pathlib
import re
from .places import DESKS, first_with

FOLDER = pathlib.Path(__file__).parent


def reasons() -> bytes:
    """What each reason means, in three languages. A site does not start without the tools of the desk."""
    folder = first_with(DESKS, "reasons.json")
    return (folder / "reasons.json").read_bytes() if folder else b"{}"


def body() -> bytes:
    """The page with its tables."""
    page = (FOLDER / "desk.html").read_bytes().replace(b"@MEANINGS@", (FOLDER / "meanings.json").read_bytes())
    return page.replace(b"@REASONS@", reasons())


BODY = body()


def sum_of(element: bytes) -> str:
    """The sum of the text of the one element of a name, by which a browser runs it and no other."""
    inside, = re.findall(rb"<%b>(.*?)</%b>" % (element, element), BODY, re.DOTALL)
    return f"'sha256-{base64.b64encode(hashlib.sha256(inside).digest()).decode()}'"


POLICY = (f"default-src 'none'; style-src {sum_of(b'style')}; script-src {sum_of(b'script')}; connect-src "
          "'self'; frame-ancestors 'none'; base-uri 'none'; form-action 'none'")
