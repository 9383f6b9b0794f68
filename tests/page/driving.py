"""driving.py: opens the page in the browser, gives it files, and compares what it answers."""
from __future__ import annotations
import base64
import json
import pathlib
from typing import Any
from tests import harness
from tests.harness import EXAMPLES

PAGE = harness.TOP / "web/out/niluppang.html"
HELPERS = pathlib.Path(__file__).with_name("helpers.js").read_text()


def text_of(data: Any) -> Any:
    """Bytes as a literal of a script."""
    return json.dumps(base64.b64encode(data).decode())


class Checks:
    """What passed and what failed."""

    def __init__(self) -> None:
        self.passed = self.failed = 0

    def fits(self, name: Any, got: Any, right: Any) -> None:
        """Compares an answer with the right one."""
        if got == right:
            self.passed += 1
        else:
            self.failed += 1
            print(f"{name}: {got!r:.300} and not {right!r:.300}")


def opened(browser: Any) -> None:
    """Opens the page anew."""
    browser.open(PAGE)
    browser.value(HELPERS + "\n1")


def saved(browser: Any, name: Any) -> Any:
    """The bytes of a text that the page saves."""
    return base64.b64decode(browser.value(f"kept_text({json.dumps(name)})"))


def answered(browser: Any, *paths: Any) -> None:
    """Gives the page a file of messages, and waits for the answer."""
    browser.value("document.body.dataset.done = ''")
    browser.give("#messages", *paths)
    browser.until("document.body.dataset.done === '1'")


def reported(browser: Any, bank: Any, day: Any, path: Any) -> Any:
    """The report that the page saves, or its line about the fault."""
    browser.value(
        f"at('bank').value = {json.dumps(bank)}; at('day').value = {json.dumps(day)}; document.body.dataset.done = ''")
    browser.give("#list", path)
    browser.value("at('compare').click()")
    browser.until("document.body.dataset.done === '1'")
    fault = browser.value("at('fault').textContent")
    report = fault or saved(browser, "report")
    browser.value("at('list').value = at('bank').value = at('day').value = ''")
    return report


def with_report(browser: Any) -> None:
    """Has the page show a report."""
    answered(browser, EXAMPLES / "bank-day.jsonl")
    reported(browser, "LUTEFRPP", "2025-03-10", EXAMPLES / "bank-day.list")
