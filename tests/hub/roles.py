"""roles.py: configurations and files of roles, by themselves: what they come to, and how each wrong one is refused.

No site runs, and no package is needed but Python 3.11.
"""
import base64
import hashlib
import pathlib
import sys
import tempfile
from tests import harness
from tests.harness import SERVICES, reported
if sys.version_info < (3, 11):
    print("skipped: this needs Python 3.11 or later, as Debian 12 has it: apt-get install python3", flush=True)
    harness.end(0, 0)
sys.path.insert(0, str(SERVICES))
from hub import access, addresses, config
from hub.files import Wrong

ONE = """
folder = "data"
site = 2
group = 8
port = 8702
names = ["site2.example"]
hear = 1
silence = 2.5
waiting = 60
roles = "roles.toml"
host = "10.0.0.2"
peer_token = "/etc/peer.token"
program = "/usr/bin/sct_sites"
before = "https://site9.example:8700"
[tls]
certificate = "s{site}.crt"
key = "/keys/s{site}.key"
authority = "ca.crt"
[peers]
1 = "https://site1.example:8700"
3 = "https://site3.example:8700"
[through]
4 = 3
"""
SEVERAL = 'folder = "data"\nsites = [1, 3]\nport = 9000\n'
TLS = '[tls]\ncertificate = "a"\nkey = "b"\nauthority = "c"\n'
A, B = "sha256:" + hashlib.sha256(b"one").hexdigest(), "sha256:" + hashlib.sha256(b"two").hexdigest()
ROLES = f"""
[lutefrpp]
roles = ["bank LUTEFRPP", "bank HANSDEHH370"]
certificates = ["DNS:gateway.lutefrpp.example", "URI:spiffe://hub/lutefrpp"]
[site-2]
roles = ["peer 2", "peer 5"]
certificates = ["DNS:site2.example"]
[desk]
roles = ["desk", "monitor"]
tokens = ["{A}", "{B}"]
"""


def why(call, text):
    """Why a text in a file is refused, or nothing."""
    with tempfile.TemporaryDirectory() as folder:
        path = pathlib.Path(folder, "it.toml")
        path.write_text(text)
        try:
            call(str(path))
        except Wrong as fault:
            return str(fault)
    return ""


def made(call, text):
    """What a text in a file comes to, and the folder of the file, which is gone."""
    with tempfile.TemporaryDirectory() as folder:
        path = pathlib.Path(folder, "it.toml")
        path.write_text(text)
        return call(str(path)), str(pathlib.Path(folder).resolve())


def reads_configurations():
    found, folder = made(config.of_file, ONE)
    tls = config.Tls(f"{folder}/s2.crt", "/keys/s2.key", f"{folder}/ca.crt", "required")
    right = config.Settings(
        f"{folder}/data", 2, 8, "10.0.0.2", 8702, ("site2.example",), 1, 2.5, 2000, 30.0, 60, "/usr/bin/sct_sites",
        f"{folder}/roles.toml", "/etc/peer.token", tls=tls, through={4: 3}, before="https://site9.example:8700",
        peers={1: "https://site1.example:8700", 3: "https://site3.example:8700"},
        sum=hashlib.sha256(ONE.encode()).hexdigest())
    yield "a site", found == {2: right}
    found, _ = made(config.of_file, SEVERAL)
    yield "several sites have ports in a row, and know each other", {
        number: (it.port, it.peers) for number, it in found.items()} == {
            1: (9000, {3: "http://127.0.0.1:9002"}), 3: (9002, {1: "http://127.0.0.1:9000"})}
    found, _ = made(config.of_file, SEVERAL + 'roles = "r"\n' + TLS)
    yield "with TLS they know each other by https", found[1].peers == {3: "https://127.0.0.1:9002"}
    yield "a site without more serves this machine", [
        (it.host, it.group, it.tls, it.roles)
        for it in made(config.of_file, 'folder = "x"\nsite = 1\n')[0].values()] == [
            ("127.0.0.1", 64, None, None)]


def refuses_configurations():
    short = 'folder = "x"\nsite = 1\n'
    wrong = {
        "no key colour": short + 'colour = "red"\n',
        "[tls] has no key cert": short + TLS + 'cert = "x"\n', "has a folder": "site = 1\n",
        "either a site or sites": short + "sites = [1]\n", "sites has a number twice": 'folder = "x"\nsites = [1, 1]\n',
        "twice, or none": 'folder = "x"\nsites = []\n',
        "site in ": 'folder = "x"\nsite = "1"\n', "port in ": short + "port = true\n", "host in ": short + "host = 1\n",
        "[tls] lacks key and authority": short + '[tls]\ncertificate = "x"\n',
        "required or optional": short + TLS + 'clients = "none"\n',
        "[tls] needs roles": short + TLS, "only this machine is served": short + 'host = "0.0.0.0"\n',
        "a site has a number from 1 to the group": 'folder = "x"\nsite = 65\n',
        "begins with http": short + '[peers]\n2 = "ftp://x"\n',
        "not that of the site": short + '[peers]\n1 = "http://x"\n',
        "is not a table from numbers of sites to addresses": short + "[peers]\n2 = 3\n",
        "hear is a number of peers": short + "hear = 1\n",
        "site 2, which hands on the entries of site 4, is no peer of it any more": short + "[through]\n4 = 2\n",
        "[through] of site 1 names 1, which is no other site": short + '[peers]\n2 = "http://x"\n[through]\n1 = 2\n',
        "[through] is for sites that are no peers": short
        + '[peers]\n2 = "http://x"\n3 = "http://y"\n[through]\n2 = 3\n',
        "numbers of sites to numbers": short + "[through]\n4 = true\n",
        "names is not a list of texts": short + "names = [1]\n",
        "is not TOML": "folder = \n",
        "a token goes in clear": short + 'roles = "r"\n' + TLS + '[peers]\n2 = "http://x"\n',
        "is out of range": short + "port = 0\n",
        "acknowledge is a number of peers": short + "acknowledge = 1\n",
        "acknowledge_seconds is more than 0": short + "acknowledge_seconds = 0\n",
        "unacknowledged is refuse or answer": short + 'unacknowledged = "x"\n',
        "takes = false needs peers": short + "takes = false\n",
        "before is the address of a site": short + 'before = "javascript:x"\n',
        "tls is not a table": short + 'tls = "x"\n',
        "[peers] is for one site": SEVERAL + '[peers]\n2 = "http://x"\n',
        "silence, or waiting is out of range": short + "waiting = -1\n"
    }
    found = {text: why(config.of_file, its) for text, its in wrong.items()}
    odd = [text for text, said in found.items() if text.replace("silence, or", "silence or") not in said]
    yield (f"{len(wrong)} wrong configurations are refused, each with its reason", not odd,
           f"{odd}: {[found[text] for text in odd]}")
    local = ["127.0.0.1", "::1", "localhost", "127.9.9.9"]
    others = ["0.0.0.0", "::", "10.0.0.1", "localhost.example", ""]
    yield "which addresses are those of this machine alone", list(map(config.is_local,
                                                                      local + others)) == [True] * 4 + [False] * 5
    with_both = short + 'host = "10.0.0.1"\nroles = "r"\n'
    yield "roles without TLS serve this machine alone too", "only this machine" in why(
        config.of_file, with_both) and not why(
            config.of_file, with_both + TLS)


def certificate(*names):
    return {"subjectAltName": tuple(tuple(name.split(":", 1)) for name in names)}


def knows_who_asks():
    roles, _ = made(access.Roles, ROLES)

    def who(header="", *names):
        return getattr(roles.who(certificate(*names), header), "name", None)

    yield "by a name of a certificate", [
        who("", name) for name in ("DNS:site2.example", "URI:spiffe://hub/lutefrpp")] == ["site-2", "lutefrpp"]
    yield "a name of another kind, another letter, or another certificate is nobody's", [
        who("", name) for name in ("URI:site2.example", "DNS:Site2.example", "DNS:site2.example.evil",
                                   "email:site2.example")] == ["nobody"] * 4
    yield "two names of one who, and a name that nobody has beside it", who(
        "", "DNS:x", "DNS:gateway.lutefrpp.example", "URI:spiffe://hub/lutefrpp") == "lutefrpp"
    yield "a certificate that is two at once is refused", who("", "DNS:site2.example",
                                                              "DNS:gateway.lutefrpp.example") is None
    yield "by either token", [who(f"Bearer {token}") for token in ("one", "two", "One", "", A)] == ["desk", "desk",
                                                                                                    None, None, None]
    basic = base64.b64encode(b"anything:one").decode()
    yield "by a token as a browser sends a password", [who(f"Basic {it}") for it in (basic, "!", "")] == ["desk", None,
                                                                                                          None]
    yield "a token counts before a certificate, and a wrong one is not forgiven", [
        who("Bearer one", "DNS:site2.example"), who("Bearer x", "DNS:site2.example"),
        who("Digest x", "DNS:site2.example")] == ["desk", None, "site-2"]
    yield "nothing shown is nobody", who() == "nobody" and roles.who(None, "") is access.NOBODY and roles.who(
        {}, "") is access.NOBODY
    bank, peer = (roles.who(certificate("URI:spiffe://hub/lutefrpp"), ""),
                  roles.who(certificate("DNS:site2.example"), ""))
    yield "the banks of a who have 11 characters", bank.banks == {"LUTEFRPPXXX", "HANSDEHH370"}
    yield "which sites a certificate is", [roles.is_peer(n, certificate("DNS:site2.example"))
                                           for n in (2, 3, 5)] == [True, False, True]
    yield "and that one that is two at once is none", not roles.is_peer(2, certificate("DNS:site2.example",
                                                                                       "DNS:gateway.lutefrpp.example"))
    yield "in whose names somebody sends", [
        its.banks_of(name, "SCALBEBBXXX") for its in (roles, access.Roles()) for name in ("lutefrpp", "desk", "x")] == [
            {"LUTEFRPPXXX", "HANSDEHH370"}, frozenset(), frozenset(), *[{"SCALBEBBXXX"}] * 3]
    most = access.who_of("x", [f"bank LUTEFR{number:02d}" for number in range(16)])
    yield "sixteen banks of one", len(most.banks) == 16
    yield "a bank is no peer", not roles.is_peer(2, certificate("DNS:gateway.lutefrpp.example")) and peer.peers == {2,
                                                                                                                    5}
    yield "without a file everyone may do all", access.Roles().who(None, "Bearer x") is access.LOCAL and all(
        access.LOCAL.may(it.roles) for it in addresses.ADDRESSES)


def refuses_roles():
    base = '[x]\nroles = ["desk"]\n'
    name = 'certificates = ["DNS:a"]\n'
    wrong = {
        "is not a role": '[x]\nroles = ["boss"]\n' + name, "'desk ' of x": '[x]\nroles = ["desk "]\n' + name,
        "x has 17 banks, and a client sends in the names of 16 at most":
        f'[x]\nroles = {[f"bank LUTEFR{number:02d}" for number in range(17)]}\n{name}',
        "'bank' of x": '[x]\nroles = ["bank"]\n' + name,
        "'bank lutefrpp' of x": '[x]\nroles = ["bank lutefrpp"]\n' + name,
        "'peer 0' of x": '[x]\nroles = ["peer 0"]\n' + name,
        "'peer 1025' of x": '[x]\nroles = ["peer 1025"]\n' + name, "neither certificates nor tokens": base,
        "x has no roles": "[x]\n" + name,
        "roles of x in ": "[x]\nroles = []\n" + name, "has no key role": base + name + 'role = "desk"\n',
        "names such as DNS:": base + 'certificates = ["a"]\n',
        "certificates of x are names": base + 'certificates = ["IP:127.0.0.1"]\n',
        "one or two texts": base + f'tokens = ["{A}", "{B}", "{A[:-1]}0"]\n',
        "tokens of x are": base + 'tokens = ["one"]\n',
        "have one certificate or token": base + name + '[y]\nroles = ["desk"]\n' + name,
        "is not a table whose name": '["x y"]\nroles = ["desk"]\n' + name, "tokens of x in": base + 'tokens = "one"\n'
    }
    found = {text: why(access.Roles, its) for text, its in wrong.items()}
    odd = [text for text, said in found.items() if text not in said]
    yield (f"{len(wrong)} wrong files of roles are refused, each with its reason", not odd,
           f"{odd}: {[found[text] for text in odd]}")


def is_refused(call, word):
    try:
        call(word)
    except Wrong:
        return True
    return False


def may_ask():
    """The table of addresses, as the page of the hub has it: each with who may ask it."""
    rows = [line.split("|")[1:-1] for line in (harness.TOP / "docs/users/hub.md").read_text().splitlines()
            if line.startswith(("| `GET /", "| `POST /"))]
    shown = {text.strip().strip("`").split("?")[0].replace("BANK", "{bank}").replace("TX", "{tx}").replace(
        "DAY", "{day}"): cells[-1].strip()
             for *cells, in rows for text in cells[0].split(", ")}
    table = {f"{it.method} {it.path}": ", ".join(it.roles) for it in addresses.ADDRESSES}
    yield ("the page has the table of addresses and roles", shown == table,
           f"{sorted(set(shown.items()) ^ set(table.items()))}")
    yield "no address is twice in the table", len(table) == len(addresses.ADDRESSES)
    roles = {role: access.who_of(role, [text]) for role, text in
             {"peer": "peer 1", "bank": "bank LUTEFRPP", "desk": "desk", "monitor": "monitor",
              "operator": "operator"}.items()}
    right = all(roles[role].may(it.roles) == (it.roles is addresses.EVERYONE or role in it.roles)
                for it in addresses.ADDRESSES for role in roles)
    yield "each role may ask what the table says, and nothing else", right
    yield "nobody may ask what everyone may, and nothing else", all(
        access.NOBODY.may(it.roles) == (it.roles is addresses.EVERYONE) for it in addresses.ADDRESSES)
    more = {"GET /totals": ("desk", "monitor"), "GET /delta": ("operator",)}
    changed = {f"{it.method} {it.path}": it.roles for it in addresses.table(more)}
    yield "a configuration gives addresses other roles", changed == {**{f"{it.method} {it.path}": it.roles
                                                                        for it in addresses.ADDRESSES}, **more}
    wrong = [{"GET /archive": ("bank",)}, {"GET /archive": ("peer",)}, {"GET /archive": ("everyone",)},
             {"GET /archive": ()}, {"GET /archive": ("boss",)},
             {"GET /x": ("desk",)}]
    yield "but no bank or peer, and not everyone, an address that is not bounded for them", all(
        is_refused(addresses.table, it) for it in wrong)
    found, _ = made(config.of_file, 'folder = "x"\nsite = 1\n[access]\n"GET /totals" = ["desk", "monitor"]\n')
    yield "by a table of its own", found[1].access == {"GET /totals": ("desk", "monitor")}
    yield "a bank alone does not see all, and the desk does", [
        roles[role].sees_all(("bank", "desk")) for role in ("bank", "desk", "operator")] == [False, True, False]


def main():
    checks = [reads_configurations, refuses_configurations, knows_who_asks, refuses_roles, may_ask]
    harness.end_of([reported(*one) for check in checks for one in check()])


if __name__ == "__main__":
    main()
