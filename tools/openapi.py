"""openapi.py: writes what the table of addresses (services/hub/addresses.py) says of each into the OpenAPI text beside
it: names, tags, roles and summaries. The rest of the text is written by hand.

Usage: tools/openapi.py
"""
from __future__ import annotations
import pathlib
import sys
SERVICES = pathlib.Path(__file__).resolve().parents[1] / "services"
sys.path.insert(0, str(SERVICES))
from hub.addresses import ADDRESSES, described

TEXT = SERVICES / "hub" / "openapi.json"


def main() -> None:
    TEXT.write_text(described(TEXT.read_text(encoding="utf-8"), ADDRESSES), encoding="utf-8")


if __name__ == "__main__":
    main()
