"""logs.py: the log of a site: a JSON object on each line. What belongs to a request has its identification."""
from __future__ import annotations
import collections
import json
import logging
import time
from typing import Any
from . import limits


def now() -> str:
    """The time as the log has it, in UTC."""
    seconds = time.time()
    return time.strftime("%Y-%m-%dT%H:%M:%S", time.gmtime(seconds)) + f".{int(seconds % 1 * 1000):03}Z"


class Lines(logging.Formatter):
    """Writes a record of the log as a line of JSON."""

    def __init__(self, site: int) -> None:
        super().__init__()
        self.site = site

    def format(self, record: logging.LogRecord) -> str:
        line = {"at": now(), "level": record.levelname, "site": self.site, "text": record.getMessage(),
                **getattr(record, "fields", {})}
        if record.exc_info:
            line["trace"] = self.formatException(record.exc_info)
        return json.dumps(line, ensure_ascii=False)


def begin(site: int) -> None:
    """Sends the log of this process to standard error."""
    handler = logging.StreamHandler()
    handler.setFormatter(Lines(site))
    logging.basicConfig(handlers=[handler], level=logging.INFO)


def fields(**values: object) -> dict[str, Any]:
    """More fields of a line of the log."""
    return {"fields": values}


class Seldom:
    """Lines of a log that somebody may cause as often as he likes. Of each kind a minute has some lines, and then one
    with their number."""

    def __init__(self, its: logging.Logger) -> None:
        self.log, self.began_at = its, 0.0
        self.counts: collections.Counter[tuple[str, ...]] = collections.Counter()

    def line(self, kind: tuple[str, ...], text: str, **values: object) -> None:
        """Writes a line of a kind, or counts it."""
        if time.monotonic() - self.began_at >= limits.LOG_SECONDS or len(self.counts) >= limits.LOG_MOST_KINDS:
            self.end_minute()
        self.counts[kind] += 1
        if self.counts[kind] <= limits.LOG_MOST_OF_KIND:
            self.log.info("%s", text, extra=fields(**values))

    def end_minute(self) -> None:
        """Writes how many came of what was only counted."""
        for kind, many in self.counts.items():
            if many > limits.LOG_MOST_OF_KIND:
                self.log.info("%s: %d more", " ".join(kind), many - limits.LOG_MOST_OF_KIND)
        self.counts, self.began_at = collections.Counter(), time.monotonic()
