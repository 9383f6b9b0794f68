"""config.py: what the sites of this machine are, by the words of the command line or by a file in TOML.

Each key of the file has a type, and a key that is not known is refused by its name. A path in it is seen from the
folder of the file. In a path `{site}` is replaced by the number of the site.
"""
from __future__ import annotations
import dataclasses
import hashlib
import ipaddress
import os
import pathlib
import stat
import tomllib
from typing import Any, Dict, Optional, Tuple
from . import limits
from .files import Wrong

MOST_GROUP = 1024
FIRST_PORT = 8701


def is_local(host: str) -> bool:
    """Whether an address is one of this machine alone."""
    try:
        return ipaddress.ip_address(host).is_loopback
    except ValueError:
        return host == "localhost"


@dataclasses.dataclass(frozen=True)
class Tls:
    """The files by which a site shows who it is, and by which it knows the others."""
    certificate: str
    key: str
    authority: str
    clients: str = "required"
    crl: Optional[str] = None


@dataclasses.dataclass(frozen=True)
class Settings:
    """What one site is told."""
    folder: str
    site: int
    group: int = 64
    host: str = "127.0.0.1"
    port: int = FIRST_PORT
    names: Tuple[str, ...] = ()
    hear: Optional[int] = None
    silence: float = 10.0
    connections: int = limits.CONNECTIONS_MOST
    seconds: float = limits.ANSWER_SECONDS
    waiting: float = 86400.0
    program: Optional[str] = None
    roles: Optional[str] = None
    peer_token: Optional[str] = None
    mirror: Optional[str] = None
    tls: Optional[Tls] = None
    peers: Dict[int, str] = dataclasses.field(default_factory=dict)
    through: Dict[int, int] = dataclasses.field(default_factory=dict)
    access: Dict[str, Tuple[str, ...]] = dataclasses.field(default_factory=dict)
    before: Optional[str] = None
    takes: bool = True
    acknowledge: int = 0
    acknowledge_seconds: float = 5.0
    unacknowledged: str = "refuse"
    sum: Optional[str] = None  # of the file that has these settings: its SHA-256


NUMBER, SECONDS_TYPE, WORDS, FLAG = (int,), (int, float), (str,), (bool,)
# the keys of a file that have one value, with the types of it, and those whose text is a path
KEYS = {"folder": WORDS, "site": NUMBER, "group": NUMBER, "host": WORDS, "port": NUMBER,
        "hear": NUMBER, "silence": SECONDS_TYPE,
        "connections": NUMBER, "seconds": SECONDS_TYPE, "waiting": SECONDS_TYPE, "program": WORDS,
        "roles": WORDS, "peer_token": WORDS,
        "mirror": WORDS, "before": WORDS, "takes": FLAG, "acknowledge": NUMBER, "acknowledge_seconds": SECONDS_TYPE,
        "unacknowledged": WORDS}
TLS_KEYS: dict[str, tuple[type, ...]] = {"certificate": WORDS, "key": WORDS, "authority": WORDS, "clients": WORDS,
                                         "crl": WORDS}
PATHS = {"folder", "roles", "peer_token", "mirror", "certificate", "key", "authority", "crl"}
LISTS, TABLES = {"names", "sites"}, {"tls", "peers", "through", "access"}


def typed(table: dict[str, Any], keys: dict[str, tuple[type, ...]], what: str) -> dict[str, Any]:
    """The values of a table, each of the type that its key has."""
    for key, value in table.items():
        if key not in keys:
            raise Wrong(f"{what} has no key {key}")
        if not isinstance(value, keys[key]) or isinstance(value, bool) != (keys[key] is FLAG):
            raise Wrong(f"{key} in {what} is not "
                        f"{'a text' if keys[key] is WORDS else 'true or false' if keys[key] is FLAG else 'a number'}")
    return table


def by_number(table: object, kind: type, what: str) -> dict[int, Any]:
    """A table whose keys are numbers of sites."""

    def is_one(key: str, value: int | str) -> bool:
        return key.isascii() and key.isdecimal() and isinstance(value, kind) and not isinstance(value, bool)

    if not isinstance(table, dict) or not all(is_one(*pair) for pair in table.items()):
        raise Wrong(
            f"{what} is not a table from numbers of sites to {'addresses' if kind is str else 'numbers of sites'}")
    return {int(key): value for key, value in table.items()}


def listed_in(table: dict[str, Any], key: str, kind: type) -> list[Any]:
    values = table.get(key, [])
    if not isinstance(values, list) or not all(isinstance(value, kind) and not isinstance(value, bool)
                                               for value in values):
        raise Wrong(f"{key} is not a list of {'texts' if kind is str else 'numbers'}")
    return values


def access_in(document: dict[str, Any]) -> dict[str, tuple[str, ...]]:
    """The addresses whose roles are others than usual."""
    table = document.get("access", {})
    if not isinstance(table, dict):
        raise Wrong("access is not a table")
    return {name: tuple(listed_in(table, name, str)) for name in table}


def placed(table: dict[str, Any], folder: pathlib.Path, site: int) -> dict[str, Any]:
    """A table whose paths are seen from a folder, for one site."""
    return {key: str(folder / value.replace("{site}", str(site))) if key in PATHS else value
            for key, value in table.items()}


def must_be_closed(path: str, is_secret: bool = False) -> None:
    """Wrong if other users of this machine may write a file that says who may do what, or read a secret one."""
    mode = os.stat(path).st_mode
    may = [word for word, bit in (("read", stat.S_IROTH if is_secret else 0), ("write", stat.S_IWOTH)) if mode & bit]
    if may:
        raise Wrong(
            f"every user of this machine may {' and '.join(may)} {path}: chmod {'o=' if is_secret else 'o-w'} {path}")


def parsed(path: str) -> dict[str, Any]:
    return parsed_text(path)[0]


def parsed_text(path: str) -> tuple[dict[str, Any], str]:
    """What a file has, and its SHA-256."""
    try:
        must_be_closed(path)
        data = pathlib.Path(path).read_bytes()
        return tomllib.loads(data.decode("utf-8")), hashlib.sha256(data).hexdigest()
    except OSError as fault:
        raise Wrong(f"{path} cannot be read: {fault.strerror}") from None
    except (tomllib.TOMLDecodeError, UnicodeDecodeError) as fault:
        raise Wrong(f"{path} is not TOML: {fault}") from None


def tls_in(document: dict[str, Any], folder: pathlib.Path, site: int) -> Tls | None:
    if "tls" not in document:
        return None
    if not isinstance(document["tls"], dict):
        raise Wrong("tls is not a table")
    table = placed(typed(document["tls"], TLS_KEYS, "[tls]"), folder, site)
    lacking = [key for key in ("certificate", "key", "authority") if key not in table]
    if lacking:
        raise Wrong(f"[tls] lacks {' and '.join(lacking)}")
    if table.get("clients", "required") not in ("required", "optional"):
        raise Wrong("clients in [tls] is required or optional")
    return Tls(**table)


def addresses(numbers: list[int], site: int, host: str, port: int, scheme: str) -> dict[int, str]:
    """The addresses of the other sites of a machine. Site N is N - 1 ports after the first one."""
    name = f"[{host}]" if ":" in host else host
    return {number: f"{scheme}://{name}:{port + number - 1}" for number in numbers if number != site}


def of_file(path: str) -> dict[int, Settings]:
    """The settings of each site that a file names, by number."""
    (document, its_sum), folder = parsed_text(path), pathlib.Path(path).resolve().parent
    plain = {key: value for key, value in document.items() if key not in LISTS | TABLES}
    typed(plain, KEYS, path)
    if "folder" not in plain or ("site" in plain) == ("sites" in document):
        raise Wrong(f"{path} has a folder, and either a site or sites")
    numbers = listed_in(document, "sites", int) if "sites" in document else [plain["site"]]
    plain.pop("site", None)
    peers, through = (by_number(document.get("peers", {}), str, "[peers]"),
                      by_number(document.get("through", {}), int, "[through]"))
    several = "sites" in document
    if several and peers:
        raise Wrong("[peers] is for one site: several sites of a machine know each other")
    made = {}
    for number in numbers:
        tls = tls_in(document, folder, number)
        port = plain.get("port", FIRST_PORT)
        its = addresses(numbers, number, plain.get("host", "127.0.0.1"), port,
                        "https" if tls else "http") if several else peers
        more = {"port": port + number - 1} if several else {}
        handed_on = {origin: other for origin, other in through.items() if not several or other != number}
        made[number] = checked(Settings(
            **{**placed(plain, folder, number), **more}, site=number, tls=tls, peers=its, through=handed_on,
            names=tuple(listed_in(document, "names", str)), access=access_in(document), sum=its_sum))
    if len(made) < len(numbers) or not made:
        raise Wrong("sites has a number twice, or none")
    return made


def checked(settings: Settings) -> Settings:
    """The settings of a site, if they go together."""
    if not 1 <= settings.site <= settings.group <= MOST_GROUP:
        raise Wrong(f"a site has a number from 1 to the group, which is at most {MOST_GROUP}")
    if settings.site in settings.peers or not all(1 <= number <= settings.group for number in settings.peers):
        raise Wrong("a peer has a number from 1 to the group, which is not that of the site")
    if not all(address.startswith(("http://", "https://")) for address in settings.peers.values()):
        raise Wrong("the address of a peer begins with http:// or https://")
    if settings.tls and not all(address.startswith("https://") for address in settings.peers.values()):
        raise Wrong("with [tls] the address of a peer begins with https://: else its certificate is not seen, and a "
                    "token goes in clear")
    if settings.before is not None and not settings.before.startswith(("http://", "https://")):
        raise Wrong("before is the address of a site of the group before, and begins with http:// or https://")
    if settings.hear is not None and not 0 <= settings.hear <= len(settings.peers):
        raise Wrong("hear is a number of peers")
    if not 0 <= settings.acknowledge <= len(settings.peers) or settings.acknowledge_seconds <= 0:
        raise Wrong("acknowledge is a number of peers, and acknowledge_seconds is more than 0")
    if settings.unacknowledged not in ("refuse", "answer"):
        raise Wrong("unacknowledged is refuse or answer")
    if not settings.takes and not settings.peers:
        raise Wrong("takes = false needs peers: a site that takes no messages has those of others")
    for number, other in settings.through.items():
        if not 1 <= number <= settings.group or number == settings.site:
            raise Wrong(f"[through] of site {settings.site} names {number}, which is no other site of the group")
        if other not in settings.peers:
            raise Wrong(
                f"[through] of site {settings.site}: site {other}, which hands on the entries of site {number}, is "
                "no peer of it any more")
    if set(settings.through) & set(settings.peers):
        raise Wrong("[through] is for sites that are no peers: a peer hands on its own entries")
    if not is_local(settings.host) and not (settings.tls and settings.roles):
        raise Wrong(
            "without [tls] and roles only this machine is served: host is one of its own addresses, such as 127.0.0.1")
    if settings.tls and not settings.roles:
        raise Wrong("[tls] needs roles: they say who a certificate is")
    is_reachable = 1 <= settings.port < 1 << 16 and 1 <= settings.connections <= 1 << 20
    if not is_reachable or settings.seconds <= 0 or settings.silence <= 0 or settings.waiting < 0:
        raise Wrong("port, connections, seconds, silence or waiting is out of range")
    return settings
