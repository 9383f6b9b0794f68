"""What makes a release of what the gate has proved."""
from __future__ import annotations
