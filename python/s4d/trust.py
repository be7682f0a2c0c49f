"""Who may come by TLS: the authority that certifies clients, and the file of their roles."""
from __future__ import annotations

import errno
import re
import ssl
import time
from dataclasses import dataclass
from typing import Any, Dict, FrozenSet, List, NamedTuple, Optional, Tuple

ROLE = re.compile(r"[a-z0-9-]+")  # no path

ROLE_LOST = "role lost"
CERTIFICATE_LOST = "certificate lost"

Certificate = Dict[str, Any]  # as Python's `ssl` gives it
Name = Any  # a certificate's subject or issuer in that


class Tls(NamedTuple):
    """What a listener for TLS needs: its address, and paths of certificate, key, clients' authority and file of roles."""

    host: str
    port: int
    cert: str
    key: str
    client_ca: str
    roles: str


def roles_in(path: str) -> Dict[str, str]:
    """The role of each common name. A line of the file is a role and a name; ValueError where one isn't.

    Empty lines, and those that begin with `#`, are passed over.
    """
    roles: Dict[str, str] = {}
    with open(path, encoding="utf-8", errors="replace") as file:
        for number, line in enumerate(file, 1):
            if "\ufffd" in line:
                raise ValueError(f"{path}:{number}: it is no text in UTF-8")
            words = line.split(maxsplit=1)
            if not words or words[0].startswith("#"):
                continue
            if len(words) != 2:
                raise ValueError(f"{path}:{number}: give a role and a common name")
            role, name = words[0], words[1].strip()
            if not ROLE.fullmatch(role):
                raise ValueError(f"{path}:{number}: {role} is no role: give lower-case letters, digits and -")
            if name in roles:
                raise ValueError(f"{path}:{number}: {name} is named twice")
            roles[name] = role
    return roles


def context_of(tls: Tls) -> ssl.SSLContext:
    """A context that asks each client for a certificate of the authority. OSError where a file can't be taken."""
    context = ssl.SSLContext(ssl.PROTOCOL_TLS_SERVER)
    context.minimum_version = ssl.TLSVersion.TLSv1_2
    context.verify_mode = ssl.CERT_REQUIRED
    context.options |= ssl.OP_NO_RENEGOTIATION
    for path in (tls.cert, tls.key, tls.client_ca):
        with open(path, "rb"):  # so that the fault names its file
            pass
    try:
        context.load_cert_chain(tls.cert, tls.key, password="")  # so that nobody is asked for the password of a key that has one
    except ssl.SSLError as error:
        raise OSError(errno.EINVAL, f"no certificate with this key ({error.reason or 'no PEM, or the key has a password'})", tls.cert) from None
    try:
        context.load_verify_locations(tls.client_ca)
    except ssl.SSLError as error:
        raise OSError(errno.EINVAL, f"no certificate ({error.reason or error})", tls.client_ca) from None
    return context


def common_name(certificate: Optional[Certificate]) -> Optional[str]:
    """The common name in a certificate's subject, where there is exactly one."""
    subject = (certificate or {}).get("subject", ())
    names = [value for part in subject for key, value in part if key == "commonName"]
    return names[0] if len(names) == 1 else None


@dataclass(frozen=True)
class Trust:
    """Who may come: what asks for certificates, the authorities that certify, and the role of each common name."""

    context: ssl.SSLContext
    file: bytes  # of the authorities
    authorities: FrozenSet[Tuple[bytes, Name]]  # each one's certificate, and the name in that
    roles: Dict[str, str]

    def role_of(self, certificate: Optional[Certificate]) -> Optional[str]:
        """The role by a client's certificate, where it has one."""
        name = common_name(certificate)
        return None if name is None else self.roles.get(name)

    def loss(self, role: str, certificate: Certificate, earlier: Trust) -> Optional[str]:
        """What a client has lost that an earlier trust gave this role; None where it would have it now too."""
        if self.role_of(certificate) != role:
            return ROLE_LOST
        return None if self._takes(certificate, earlier) else CERTIFICATE_LOST

    def _takes(self, certificate: Certificate, earlier: Trust) -> bool:
        """Whether a certificate that an earlier trust took is taken still.

        It is where the authorities are the same, or the one by whose name it is signed is among the earlier and these, and
        none of that name has gone. Else that can't be said without the client, which may come again.
        """
        if ssl.cert_time_to_seconds(certificate["notAfter"]) < time.time():
            return False
        if self.file == earlier.file:
            return True
        kept = {name for _, name in self.authorities & earlier.authorities}
        gone = {name for _, name in earlier.authorities - self.authorities}
        return certificate["issuer"] in kept - gone


def trust_of(tls: Tls) -> Trust:
    """Certificates and roles as the files have them now. OSError or ValueError where one can't be taken."""
    context = context_of(tls)
    with open(tls.client_ca, "rb") as file:
        text = file.read()
    names: List[Name] = [it["subject"] for it in context.get_ca_certs()]
    return Trust(context, text, frozenset(zip(context.get_ca_certs(binary_form=True), names)), roles_in(tls.roles))
