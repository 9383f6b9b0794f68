"""Sites of a hub as services: the proved process `serve` of each site behind HTTP. docs/users/hub.md says how."""
from __future__ import annotations
