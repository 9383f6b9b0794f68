"""metrics.py: what Prometheus reads of a site."""
from __future__ import annotations
import time
from typing import Iterable, Iterator, TYPE_CHECKING
from . import limits
if TYPE_CHECKING:
    from .service import Service


# what each metric counts, and its unit
HELP = {
    "build_info": "The version of the program of the site.", "messages_total": "Messages that were posted, by outcome.",
    "entries": "Messages that the site holds, by the site that took them.",
    "refusals_total": "Messages that were refused, by the number of the code.",
    "peer_lag_entries": "Messages that a peer has and the site lacks.",
    "peer_heard_seconds": "Seconds since a peer was heard.",
    "peer_failures_total": "Questions that a peer did not answer.",
    "peer_record_rows": "Rows of the record of a peer that were seen.",
    "peer_record_is_wrong": "1 if rows of the record of a peer that were seen are gone or changed.",
    "deltas_total": "Deltas that peers were sent.",
    "rounds_total": "Rounds of requests to the process.", "round_seconds_total": "Seconds in these rounds.",
    "process_restarts_total": "Times that the process of the site was started again.",
    "record_rows": "Rows of the record.",
    "record_sum": "The first digits of the sum of the last row of the record, as a number.",
    "waiting_lines": "Lines that wait for their instruction.",
    "acknowledging_peers": "Peers that asked in the last 10 seconds.",
    "unacknowledged_total": "Posts that too few peers held in time.",
    "clock_jump_seconds_total": "Seconds by which the clock of the machine jumped.",
    "disk_free_bytes": "Free bytes of the disk of the journal.",
    "journal_bytes": "Bytes of the journal.", "waiting_bytes": "Bytes of lines and deltas that wait for the process.",
    "body_bytes": "Bytes of bodies that are read.", "pages": "Pages that watch changes.",
    "forbidden_total": "Requests that were refused.",
    "tls_refused_total": "Connections that TLS refused.",
    "certificate_seconds": "Seconds for which a file of [tls] is still valid.",
    "quota_used_ratio": "The part of its quota of a day that a client used.", "connections": "Open connections.",
    "digest": "The first digits of the digest of all entries of a site, as a number.",
    "fork": "The first entry of a site that is another one at a peer.",
    "forks": "Sites of which a peer holds other entries.",
    "peer_compared_seconds": "Seconds since digests were compared with a peer.",
    "is_halted": "1 if the site is halted.", "is_well": "1 if the site takes messages."
}


def metric(name: str, kind: str, rows: Iterable[tuple[str, object]]) -> Iterator[str]:
    yield f"# HELP niluppang_{name} {HELP[name]}\n# TYPE niluppang_{name} {kind}\n"
    for labels, value in rows:
        yield f"niluppang_{name}{labels} {value}\n"


def metric_lines(service: Service) -> Iterator[str]:
    """All metrics, in their order."""
    yield from of_messages(service)
    yield from of_peers(service)
    yield from of_site(service)
    yield from of_clients(service)
    yield from of_digests(service)


def of_messages(service: Service) -> Iterator[str]:
    """What was posted, and what is held."""
    keeper, numbers = service.parts.keeper, service.parts.keeper.rounds.measured.numbers
    words = ("TAKEN", "REPEAT", "REFUSED")
    yield from metric("build_info", "gauge", [(f'{{version="{service.parts.version}"}}', 1)])
    yield from metric("messages_total", "counter", [(f'{{outcome="{word}"}}', numbers[word]) for word in words])
    yield from metric("entries", "gauge",
                      [(f'{{origin="{n}"}}', count) for n, count in enumerate(keeper.holding.counts, 1) if count])
    refusals = sorted((n, count) for n, count in numbers.items() if isinstance(n, int))
    yield from metric("refusals_total", "counter", [(f'{{number="{n}"}}', count) for n, count in refusals])


def of_peers(service: Service) -> Iterator[str]:
    """What is known of peers."""
    now, its = time.monotonic(), service.parts.peers
    peers, records = its.all, its.wrong_records()
    yield from metric("peer_lag_entries", "gauge", [(f'{{peer="{peer.number}"}}', peer.lag()) for peer in peers])
    yield from metric("peer_heard_seconds", "gauge", [(f'{{peer="{peer.number}"}}', f"{now - peer.heard_at:.3f}")
                                                      for peer in peers if peer.heard_at is not None])
    yield from metric("peer_failures_total", "counter",
                      [(f'{{peer="{peer.number}"}}', peer.failures) for peer in peers])
    yield from metric("peer_record_rows", "gauge",
                      [(f'{{peer="{n}"}}', rows) for n, (rows, _) in sorted(its.seen.rows.items())])
    yield from metric("peer_record_is_wrong", "gauge",
                      [(f'{{peer="{peer.number}"}}', int(peer.number in records)) for peer in peers])
    yield from metric("deltas_total", "counter", [("", service.peers.asked_deltas)])


def of_site(service: Service) -> Iterator[str]:
    """What the process, the record and the disk have."""
    parts, keeper = service.parts, service.parts.keeper
    rows, its = parts.record.last()
    yield from metric("rounds_total", "counter", [("", keeper.rounds.measured.rounds)])
    yield from metric("round_seconds_total", "counter", [("", f"{keeper.rounds.measured.seconds:.6f}")])
    yield from metric("process_restarts_total", "counter", [("", max(0, keeper.starts.restarts))])
    yield from metric("record_rows", "gauge", [("", rows)])
    yield from metric("record_sum", "gauge", [("", int(its[:limits.SHORT_SUM_DIGITS], 16))])
    yield from metric("waiting_lines", "gauge", [("", parts.posts.many)])
    yield from metric("acknowledging_peers", "gauge", [("", parts.posts.copies.present())])
    yield from metric("unacknowledged_total", "counter", [("", parts.posts.copies.lacked)])
    yield from metric("clock_jump_seconds_total", "counter", [("", f"{parts.posts.ends.jumps.sum:.3f}")])
    yield from metric("disk_free_bytes", "gauge", [("", keeper.files.free())])
    yield from metric("journal_bytes", "gauge", [("", keeper.files.size())])
    yield from metric("waiting_bytes", "gauge", [("", keeper.queue.sizes["take"] + keeper.queue.sizes["accept"])])


def of_clients(service: Service) -> Iterator[str]:
    """What clients use."""
    until_of, connections = service.monitors.configured.until, service.front.connections
    quotas = service.parts.guard.roles.quotas
    yield from metric("body_bytes", "gauge", [("", service.shares.bodies.total() + service.shares.lists.total())])
    yield from metric("pages", "gauge", [("", len(service.desk.events.queues))])
    yield from metric("forbidden_total", "counter", [("", service.front.denied.requests)])
    yield from metric("tls_refused_total", "counter", [("", service.front.denied.handshakes)])
    yield from metric("certificate_seconds", "gauge", [(f'{{file="{key}"}}', f"{until - time.time():.0f}")
                                                       for key, until in until_of.items() if until < float("inf")])
    yield from metric("quota_used_ratio", "gauge", [(f'{{client="{name}",of="{of}"}}', f"{part:.4f}")
                                                    for name, of, part in service.shares.days.ratios(quotas)])
    yield from metric("connections", "gauge", [("", len(connections.open) if connections else 0)])


def of_digests(service: Service) -> Iterator[str]:
    """The digests, and whether the site is well."""
    keeper, now, peers = service.parts.keeper, time.monotonic(), service.parts.peers.all
    forks, monitors = keeper.marks.forks, service.monitors
    yield from metric("digest", "gauge", [(f'{{origin="{n}"}}', int(its.digits[:limits.SHORT_SUM_DIGITS], 16))
                                          for n, its in sorted(keeper.holding.digests.items())])
    yield from metric("fork", "gauge", [(f'{{origin="{n}"}}', first) for n, (first, _) in sorted(forks.items())])
    yield from metric("forks", "gauge", [("", len(forks))])
    yield from metric("peer_compared_seconds", "gauge", [(f'{{peer="{peer.number}"}}', f"{now - peer.compared_at:.3f}")
                                                         for peer in peers if peer.compared_at is not None])
    yield from metric("is_halted", "gauge", [("", int(bool(keeper.marks.halted)))])
    yield from metric("is_well", "gauge", [("", int(not monitors.faults() and not monitors.forks()))])
