"""main.py: the sites of a hub as services over HTTP, each on the proved process `sct_sites serve` with a journal in a
file.

`main.py FOLDER` starts three sites on ports of this machine, each as a process of its own, and starts one again that
ends. With --site it is one site. `main.py --config FILE` starts the site or the sites of a file, with TLS and roles.
SIGHUP has a running hub read the file again. docs/users/hub.md has more.

Other words make one site do something and end: they need --site if the file has several sites. The program is the one
that --program names, or the variable SCT_SITES, or the one that the gate leaves in this clone, or that of the release,
or the one on the search path.

The exit status is 2 if a site must not start, and 3 if its disk fails or its port is in use. Standard error says why.
"""
from __future__ import annotations
import argparse
import getpass
import hashlib
import logging
import os
import pathlib
import pwd
import re
import resource
import secrets
import shutil
import signal
import subprocess
import sys
from typing import NoReturn
from importlib.util import find_spec

hung_up: list[int] = []  # SIGHUP that came before a site can read its files again
before_hangups = signal.signal(signal.SIGHUP, lambda number, _: hung_up.append(number))
HERE = pathlib.Path(__file__).resolve()
TOP = HERE.parents[2]
sys.path.insert(0, str(HERE.parents[1]))
if sys.version_info < (3, 11):
    sys.exit("hub: this needs Python 3.11 or later, as Debian 12 has it")
if find_spec("aiohttp") is None:
    print(f"hub: {sys.executable} has no aiohttp. Debian's package python3-aiohttp belongs to "
          "/usr/bin/python3: start this program with it", file=sys.stderr)
    sys.exit(2)
from hub import chain, config, limits, logs, over, roll, running, words
from hub.files import Files, Held, Wrong
from hub.places import of_release
from hub.several import Several

WRONG, AWAY = running.WRONG, running.AWAY
# words after which it ends
ACTS = ("print", "check", "read_over", "clear_halt", "clear_fork", "backup", "verify", "restore", "adopt", "roll",
        "audit")


def peer(text: str) -> tuple[int, str]:
    """The number and the address of a peer, such as 2=http://127.0.0.1:8702."""
    number, equals, address = text.partition("=")
    if not equals or not number.isdecimal():
        raise argparse.ArgumentTypeError(f"{text} is not NUMBER=ADDRESS")
    return int(number), address


def numbers(text: str) -> list[int]:
    """The numbers of sites: 3 for sites 1 to 3, or a list such as 1,2,4."""
    parts = text.split(",")
    if not all(part.isascii() and part.isdecimal() and len(part) <= 4 for part in parts):
        raise argparse.ArgumentTypeError(f"{text} is not a number of sites, and not a list such as 1,2,4")
    sites = list(map(int, parts))
    return list(range(1, sites[0] + 1)) if len(sites) == 1 else sites


def options(arguments: list[str]) -> argparse.Namespace:
    parser = argparse.ArgumentParser(prog="main.py", description=__doc__,
                                     formatter_class=argparse.RawDescriptionHelpFormatter)
    parser.add_argument("folder", metavar="FOLDER", nargs="?", help="where the journals are, as siteN.journal")
    parser.add_argument("--config", metavar="FILE",
                        help="a file in TOML with all that is said of the site or the sites")
    parser.add_argument("--sites", metavar="N", type=numbers, default=[1, 2, 3],
                        help="start sites 1 to N on this machine (3), or those of a list 1,2,4")
    parser.add_argument("--site", metavar="N", type=int, help="be site N alone")
    parser.add_argument("--only", metavar="N", type=int,
                        help="of the sites that would be started, be site N: the hub starts its sites so")
    parser.add_argument("--group", metavar="N", type=int, default=64,
                        help="the greatest number that a site may ever have (64)")
    parser.add_argument("--program", metavar="PATH", help="the program sct_sites")
    parser.add_argument("--host", metavar="ADDRESS", default="127.0.0.1",
                        help="the address to serve at: one of this machine alone (127.0.0.1)")
    parser.add_argument("--port", metavar="PORT", type=int, default=config.FIRST_PORT,
                        help=f"the port of site 1, or of the one site ({config.FIRST_PORT})")
    parser.add_argument("--name", metavar="HOST", action="append", default=[],
                        help="a name of this site in requests; as often as needed")
    parser.add_argument("--peer", metavar="N=URL", type=peer, action="append", default=[],
                        help="a peer, for --site; as often as needed")
    parser.add_argument("--through", metavar="N=PEER", type=peer, action="append", default=[],
                        help="take entries of site N from this peer")
    parser.add_argument("--hear", metavar="N", type=int,
                        help="take no message before N peers were heard (1 if there are peers)")
    parser.add_argument("--acknowledge", metavar="N", type=int, default=0,
                        help="answer a post after N peers hold it, too (0)")
    parser.add_argument("--silence", metavar="SECONDS", type=float, default=10,
                        help="give up a peer after so long without a byte (10)")
    parser.add_argument(
        "--mirror", metavar="FILE",
        help="the database of mirror.py, by which transfers are found; {site} is the number of the site")
    parser.add_argument("--connections", metavar="N", type=int, default=limits.CONNECTIONS_MOST,
                        help="connections at most (2,000)")
    parser.add_argument("--seconds", metavar="N", type=float, default=limits.ANSWER_SECONDS,
                        help="seconds for a request to come and an answer to go (30)")
    add_acts(parser)
    return parser.parse_args(arguments)


def add_acts(parser: argparse.ArgumentParser) -> None:
    """The words after which it ends."""
    parser.add_argument("--print", action="store_true",
                        help="print the messages of the journal; the site may run meanwhile")
    parser.add_argument("--check", action="store_true",
                        help="print what the program refuses of the journal, such as before an upgrade")
    parser.add_argument("--backup", metavar="FILE",
                        help="copy journal, record and what waits, while the site runs or not, and try the copy")
    parser.add_argument("--verify", metavar="FILE",
                        help="try a copy without serving it, and compare its files with its manifest")
    parser.add_argument("--restore", metavar="FILE",
                        help="put a copy in the place of a journal, and of a record, that are not there any more")
    parser.add_argument("--adopt", metavar="JOURNAL",
                        help="take all messages of the journal of a retired number, after the peers were heard")
    parser.add_argument("--roll", metavar=("DAY", "JOURNAL"), nargs=2,
                        help="close the site, and have a new site begin with what is kept")
    parser.add_argument("--clear-halt", action="store_true", help="let the site take messages again after a halt")
    parser.add_argument("--clear-fork", metavar="ORIGIN", type=int,
                        help="let the site accept entries of a site again that had other entries elsewhere")
    parser.add_argument("--audit", action="store_true",
                        help="check the record of the site, alone, with its journal, and with what that holds")
    parser.add_argument("--since", metavar="NUMBER:SUM", help="for --audit: a row of the record that was seen before")
    parser.add_argument("--read-over", metavar="OLD.db",
                        help="make the journal of an SQLite journal of an older version")
    parser.add_argument("--new-token", action="store_true", help="print a new token, and its sum for the file of roles")


def stop(why: str, status: int = WRONG) -> NoReturn:
    print(f"hub: {why}", file=sys.stderr, flush=True)
    sys.exit(status)


# ---- the program

def program_of(given: str | None) -> str:
    """The path of the program."""
    named = given or os.environ.get("SCT_SITES")
    if named:
        path = shutil.which(named)
        if path is None:
            stop(f"there is no program {named}")
        return os.path.abspath(path)
    built = TOP / "crates" / "sct_sites" / "out" / "sct_sites"  # of a clone
    path = str(built) if built.is_file() else str(of_release() or "") or shutil.which("sct_sites")
    if path is None:
        stop("there is no program sct_sites: name it by --program or by the variable SCT_SITES")
    return path


def version_of(program: str) -> str:
    """The version that the program says."""
    try:
        said = subprocess.run([program, "--version"], stdin=subprocess.DEVNULL,
                              stdout=subprocess.PIPE, stderr=subprocess.DEVNULL,
                              timeout=limits.VERSION_SECONDS)
    except subprocess.TimeoutExpired as fault:
        stop(f"{program} does not say its version: {fault}", AWAY)
    except OSError as fault:
        stop(f"{program} does not say its version: {fault}")
    match = re.search(rb"\d+\.\d+\.\d+", said.stdout)
    if not match:
        stop(f"{program} does not say its version")
    return match.group().decode()


# ---- what is asked for

def of_words(args: argparse.Namespace) -> dict[int, config.Settings]:
    """The settings of each site that the words of the command line come to."""
    if args.site is None and (args.peer or args.through):
        raise Wrong("--peer and --through are for one site: name it by --site")
    chosen = args.sites if args.site is None else [args.site]
    if len(set(chosen)) < len(chosen) or not chosen:
        raise Wrong("--sites has a number twice, or none")
    made = {}
    for number in chosen:
        peers = dict(args.peer) if args.site else config.addresses(chosen, number, args.host, args.port, "http")
        if args.site and len(peers) < len(args.peer):
            raise Wrong("a peer has a number that is that of no other peer")
        made[number] = config.checked(config.Settings(
            folder=args.folder, site=number, group=args.group, host=args.host, names=tuple(args.name),
            hear=args.hear, silence=args.silence,
            acknowledge=args.acknowledge,
            port=args.port if args.site else args.port + number - 1, connections=args.connections, seconds=args.seconds,
            program=args.program, mirror=args.mirror and args.mirror.replace("{site}", str(number)), peers=peers,
            through={origin: through_of(text) for origin, text in args.through}))
    return made


def through_of(text: str) -> int:
    if not text.isdecimal():
        raise Wrong("--through is N=PEER, two numbers of sites")
    return int(text)


def settings_of(args: argparse.Namespace) -> dict[int, config.Settings]:
    """The settings of each site, by number."""
    if bool(args.folder) == bool(args.config):
        raise Wrong("name a FOLDER, or a file by --config")
    sites = config.of_file(args.config) if args.config else of_words(args)
    chosen = args.only or (args.site if args.config else None)
    if chosen is None:
        return sites
    if chosen not in sites:
        raise Wrong(f"there is no site {chosen} among them")
    return {chosen: sites[chosen]}


def one_site(args: argparse.Namespace, settings: config.Settings) -> int:
    """Runs a site. The exit status."""
    logs.begin(settings.site)
    _, most = resource.getrlimit(resource.RLIMIT_NOFILE)
    resource.setrlimit(resource.RLIMIT_NOFILE, (min(most, 1 << 16), most))
    files, program = Files(settings.folder, settings.site, settings.group), program_of(settings.program)
    try:
        files.make_folder()
    except OSError as fault:
        stop(f"{fault.strerror}: {fault.filename}", AWAY)
    if files.old.exists() and not files.journal.exists():
        stop(f"site {settings.site} cannot start: {files.old} is a journal of an older version: --read-over "
             "reads it over")
    version = version_of(program)
    logging.getLogger("hub").info("the program is %s, version %s", program, version)
    return running.run(settings, program, version, lambda: settings_of(args)[settings.site], lambda: bool(hung_up))


def wanted(arguments: list[str]) -> dict[int, list[str]]:
    """The sites that shall run, each with the words that start it."""
    return {number: [sys.executable, "-u", __file__, *arguments, "--only", str(number)]
            for number in settings_of(options(arguments))}


# ---- words after which it ends

def act(args: argparse.Namespace, settings: config.Settings) -> int:
    """Does what a word asks for, and ends. The exit status."""
    files, program = Files(settings.folder, settings.site, settings.group), program_of(settings.program)
    files.make_folder()
    if args.adopt or args.clear_halt or args.clear_fork or args.read_over or args.restore:
        with files.alone():
            return act_alone(args, settings, files, program)
    noted = Acts(files)
    if args.print:
        for line in files.own_lines():
            sys.stdout.buffer.write(line + b"\n")
        sys.stdout.buffer.flush()
        return 0
    if args.audit:
        if not files.record.exists():
            raise Wrong(f"there is no record {files.record}: compare the folder and the number of the site")
        text, status = words.audited(files, program, args.since)
    elif args.roll:
        day, journal = args.roll
        text, status = roll.roll(files, program, day, journal, noted)
    elif args.check:
        text, status = words.check(files, program)
    elif args.backup:
        text, status = words.backup(files, program, args.backup, noted)
    else:
        text, status = words.verify(files, program, args.verify)
    print(text)
    return status


def act_alone(args: argparse.Namespace, settings: config.Settings, files: Files, program: str) -> int:
    """Does what a word asks for that must not be done while the site runs. The exit status."""
    noted = Acts(files)
    if args.adopt:
        return running.adopt(settings, program, version_of(program), args.adopt, noted)
    if args.clear_halt:
        text, status = words.clear_halt(files, noted)
    elif args.clear_fork:
        text, status = words.clear_fork(files, args.clear_fork, noted)
    elif args.read_over:
        text, status = over.read_over(args.read_over, files, program), 0
    else:
        text, status = words.restore(files, program, args.restore, noted)
    print(text)
    return status


class Acts:
    """What an operator does, for the record of a site."""

    def __init__(self, files: Files) -> None:
        self.files = files

    def act(self, act: str, what: dict[str, int | str]) -> int:
        """Adds a row. Its number, by which a later row names it."""
        its = self.files
        return chain.act_once(its.record, its.site, its.group, act, operator(), what, its.own_lines)


def operator() -> str:
    """The user that runs this, and as whom somebody logged in, if that is another one: sites have a user of their
    own."""
    user = f"user {getpass.getuser()}"
    try:
        login = pwd.getpwuid(int(pathlib.Path("/proc/self/loginuid").read_text())).pw_name
    except (OSError, ValueError, KeyError):
        return user
    return user if user == f"user {login}" else f"{user}, logged in as {login}"


def new_token() -> None:
    """Prints a token that nobody can guess, and what a file of roles has of it."""
    token = secrets.token_urlsafe(32)
    print(f"token: {token}\nsum:   sha256:{hashlib.sha256(token.encode()).hexdigest()}")


def main() -> None:
    os.umask(0o077)  # journals are payments of customers: nobody else of this machine reads them
    arguments = sys.argv[1:]
    args = options(arguments)
    if args.new_token:
        return new_token()
    try:
        sites = settings_of(args)
        does = [word for word in ACTS if getattr(args, word)]
        if len(does) > 1 or does and len(sites) > 1:
            stop("this is asked of one site, one word at a time: name it by --site")
        number, settings = next(iter(sites.items()))
        if does:
            signal.signal(signal.SIGHUP, before_hangups)
            sys.exit(act(args, settings))
        if len(sites) == 1 and (args.site or args.only or args.config):
            sys.exit(one_site(args, settings))
        sys.exit(Several(lambda: wanted(arguments)).run())
    except (Wrong, Held) as fault:
        stop(str(fault))
    except OSError as fault:
        stop(f"{fault.strerror}: {fault.filename}", AWAY)


if __name__ == "__main__":
    main()
