"""Answers on more messages than one machine takes: parts that share nothing, on Dask. docs/users/parts.md says how."""
from __future__ import annotations
