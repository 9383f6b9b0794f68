"""notify.py: what a site says to systemd, if that started it: that it is ready, that it lives, and what it does."""
from __future__ import annotations
import os
import socket


def notify(*lines: str) -> None:
    """Sends lines such as READY=1. Without systemd it does nothing."""
    place = os.environ.get("NOTIFY_SOCKET")
    if not place:
        return
    with socket.socket(socket.AF_UNIX, socket.SOCK_DGRAM | socket.SOCK_CLOEXEC) as channel:
        try:
            channel.sendto("\n".join(lines).encode(), "\0" + place[1:] if place.startswith("@") else place)
        except OSError:
            pass  # systemd has gone, and nobody waits for it


def watchdog_seconds() -> float | None:
    """How often systemd must hear that the site lives, or None."""
    micros, process = os.environ.get("WATCHDOG_USEC", ""), os.environ.get("WATCHDOG_PID", str(os.getpid()))
    return int(micros) / 1e6 if micros.isdecimal() and process == str(os.getpid()) else None
