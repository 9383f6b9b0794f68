"""paths.py: the parts of the path of a request about a transfer."""
from __future__ import annotations
import urllib.parse
from aiohttp import web


def parts_of(request: web.Request) -> list[bytes]:
    """The bank, the identification and what follows them in the path of a request about a transfer, as it came."""
    path = request.raw_path.partition("?")[0]
    if "://" in path.split("/transfers/")[0]:  # a request through a proxy has the name of the host too
        path = "/" + path.split("://", 1)[1].partition("/")[2]
    return list(map(urllib.parse.unquote_to_bytes,
                    path.split("/")[2:] if path.count("/") > 2 else [path.split("/")[2], ""]))
