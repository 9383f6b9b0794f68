"""secure.py: sites of services/hub with TLS and roles for a check: certificates of an authority of its own, a file of
roles, a configuration."""
from __future__ import annotations
import hashlib
import http.client
import json
import pathlib
import ssl
import time
from typing import Any
from tests import harness
from tests.harness import SERVICES
from tests.hub import sites
from tests.hub.sites import answer_on

CERTIFICATES = SERVICES / "hub" / "system" / "certificates.sh"
DESK_TOKEN, OLD_TOKEN = "a-token-of-the-desk", "an-older-token"
# who has which roles. Each has a certificate of its name
ROLES = {
    "lutefrpp": ["bank LUTEFRPP"], "hansdehh": ["bank HANSDEHHXXX"], "scalbebb": ["bank SCALBEBB"],
    "desk": ["desk"], "monitor": ["monitor"],
    "operator": ["operator"], "gateway": ["operator", "desk", "monitor"],
    **{f"site{number}": [f"peer {number}"] for number in range(1, 5)}
}


def sum_of(token: Any) -> Any:
    return f"sha256:{hashlib.sha256(token.encode()).hexdigest()}"


def certificate(folder: pathlib.Path, name: str, *others: Any) -> None:
    """Makes a certificate, whose authority is made first if it is not there."""
    done = harness.run(["sh", CERTIFICATES, folder, name, *others])
    if done.status:
        harness.stop(f"certificates.sh failed: {done.errors.decode(errors='replace')}")


AUTHORITY = """[ca]
default_ca = own
[own]
database = {folder}/index.txt
new_certs_dir = {folder}
rand_serial = yes
default_md = sha256
policy = any
x509_extensions = its
[any]
commonName = supplied
[its]
subjectAltName = {names}
extendedKeyUsage = serverAuth,clientAuth
"""


def as_authority(folder: pathlib.Path, *words: Any, names: str = "DNS:none") -> None:
    """Has the authority of a folder do what words of `openssl ca` say."""
    (folder / "index.txt").touch()
    (folder / "ca.conf").write_text(AUTHORITY.format(folder=folder, names=names))
    done = harness.run(["openssl", "ca", "-batch", "-config", folder / "ca.conf", "-keyfile",
                        folder / "authority.key", "-cert",
                        folder / "authority.crt", *words])
    if done.status:
        harness.stop(f"openssl ca failed: {done.errors.decode(errors='replace')}")


def short_certificate(folder: pathlib.Path, name: str, until: float, *others: str) -> None:
    """Makes a certificate that lasts until a second of the clock."""
    request = folder / f"{name}.csr"
    harness.run(["openssl", "req", "-newkey", "ec", "-pkeyopt", "ec_paramgen_curve:P-256", "-nodes",
                 "-subj", f"/CN={name}", "-keyout",
                 folder / f"{name}.key", "-out", request])
    ends = time.strftime("%y%m%d%H%M%SZ", time.gmtime(until))
    as_authority(folder, "-notext", "-startdate", "200101000000Z", "-enddate", ends, "-in", request,
                 "-out", folder / f"{name}.crt",
                 names=",".join(f"DNS:{one}" for one in (name, *others)))


def write_list(folder: pathlib.Path, *revoked: str, days: int = 60) -> pathlib.Path:
    """Makes the list of revoked certificates, with these and those that were revoked before."""
    for name in revoked:
        as_authority(folder, "-revoke", folder / f"{name}.crt")
    as_authority(folder, "-gencrl", "-crldays", str(days), "-out", folder / "revoked.pem")
    return folder / "revoked.pem"


def roles_text(roles: Any, tokens: Any) -> Any:
    """A file of roles."""

    def table(name: Any) -> Any:
        return [f"[{name}]", f"roles = {json.dumps(roles[name])}", f'certificates = ["DNS:{name}"]'] + (
            [f"tokens = {json.dumps(list(map(sum_of, tokens[name])))}"] if name in tokens else [])

    return "\n".join(line for name in roles for line in table(name)) + "\n"


class Secured:
    """Certificates, roles and configurations in a folder."""

    def __init__(self, folder: Any, roles: Any = None) -> None:
        self.folder, self.roles = pathlib.Path(folder), dict(roles or ROLES)
        self.folder.mkdir(parents=True, exist_ok=True)
        for name in self.roles:
            certificate(self.folder / "tls", name, *(["localhost", "127.0.0.1"] if name.startswith("site") else []))
        certificate(self.folder / "other", "desk")  # of another authority
        self.write_roles()

    def write_roles(self, **changed: Any) -> None:
        self.roles.update(changed)
        (self.folder / "roles.toml").write_text(roles_text(self.roles, {"desk": [DESK_TOKEN, OLD_TOKEN]}))

    def configured(self, data: Any, sites: Any, port: Any, *lines: Any, clients: str = "required", crl: Any = None,
                   **keys: Any) -> Any:
        """The path of the configuration of some sites of this machine, or of one."""
        path = self.folder / f"{data.name}.toml"
        more = [f"{key} = {json.dumps(value)}" for key, value in keys.items()]
        which = f"sites = {sites}" if isinstance(sites, list) else f"site = {sites}"
        path.write_text("\n".join([
            f"folder = {json.dumps(str(data))}", which, f"port = {port}",
            f'roles = "{self.folder}/roles.toml"', *more, "[tls]",
            f'certificate = "{self.folder}/tls/site{{site}}.crt"', f'key = "{self.folder}/tls/site{{site}}.key"',
            f'authority = "{self.folder}/tls/authority.crt"', f'clients = "{clients}"',
            *([f'crl = "{crl}"'] if crl else []), *lines]) + "\n")
        return path

    def context(self, who: str = "gateway", authority: str = "tls") -> Any:
        """How a client connects, with the certificate of somebody or without one."""
        it = ssl.create_default_context(cafile=self.folder / "tls" / "authority.crt")
        if who:
            it.load_cert_chain(self.folder / authority / f"{who}.crt", self.folder / authority / f"{who}.key")
        return it

    def asked(self, port: Any, path: Any, body: Any = None, who: str = "gateway", timeout: int = sites.LONGEST,
              authority: str = "tls", context: Any = None,
              **headers: Any) -> Any:
        """The answer of a site to somebody."""
        its = context or self.context(who, authority)
        return answer_on(http.client.HTTPSConnection("localhost", port, timeout=timeout, context=its), path, body,
                         headers)

    def is_well(self, port: Any) -> bool:
        return self.asked(port, "/health", who="desk").status == 200
