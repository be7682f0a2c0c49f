"""A client of S3 that signs each request by itself, so that tests can say what is wrong with one."""
import asyncio
import hashlib
import hmac
import re
from datetime import datetime, timedelta, timezone
from urllib.parse import quote

from s4d.s3.gateway import Gateway
from s4d.s3.keys import Key
from s4d.s3.server import Server

from .plain_store import PlainStores

SPACES = re.compile("[ \t]+")
OWNER = Key("owner", "a secret that nobody knows", True, None)
READER = Key("reader", "a secret of who may only read", False, frozenset(["one"]))


def encoded(text, safe=""):
    return quote(text, safe=safe + "-_.~")


class Signer:
    """Signs by the algorithm's page, apart from the gateway's own code."""

    def __init__(self, key=OWNER, now=None, region="us-east-1"):
        self.key, self.region = key, region
        self.stamp = (now or datetime.now(timezone.utc)).strftime("%Y%m%dT%H%M%SZ")
        self.scope = f"{self.stamp[:8]}/{region}/s3/aws4_request"

    def signing_key(self):
        found = b"AWS4" + self.key.secret.encode()
        for part in (self.stamp[:8], self.region, "s3", "aws4_request"):
            found = hmac.new(found, part.encode(), hashlib.sha256).digest()
        return found

    def sign(self, text):
        return hmac.new(self.signing_key(), text.encode(), hashlib.sha256).hexdigest()

    def signature(self, method, path, query, headers, payload):
        names = sorted(headers)
        canonical = "\n".join([method, encoded(path, "/"), "&".join(f"{encoded(k)}={encoded(v)}" for k, v in sorted(query)),
                               "".join(f"{name}:{SPACES.sub(' ', headers[name])}\n" for name in names), ";".join(names), payload])
        return self.sign("\n".join(["AWS4-HMAC-SHA256", self.stamp, self.scope, hashlib.sha256(canonical.encode()).hexdigest()]))

    def headers(self, method, path, query, body, more, payload=None):
        payload = payload or hashlib.sha256(body).hexdigest()
        signed = {"host": "test", "x-amz-date": self.stamp, "x-amz-content-sha256": payload, **more}
        signature = self.signature(method, path, query, signed, payload)
        named = ";".join(sorted(signed))
        return {**signed, "authorization": f"AWS4-HMAC-SHA256 Credential={self.key.access}/{self.scope},SignedHeaders={named},"
                                           f"Signature={signature}"}

    def presigned(self, method, path, expires):
        query = [("X-Amz-Algorithm", "AWS4-HMAC-SHA256"), ("X-Amz-Credential", f"{self.key.access}/{self.scope}"),
                 ("X-Amz-Date", self.stamp), ("X-Amz-Expires", str(expires)), ("X-Amz-SignedHeaders", "host")]
        signature = self.signature(method, path, query, {"host": "test"}, "UNSIGNED-PAYLOAD")
        return [*query, ("X-Amz-Signature", signature)]

    def chunked(self, data, size, signature, trailer=None):
        """The bytes of signed chunks."""
        empty, found = hashlib.sha256(b"").hexdigest(), b""
        for start in [*range(0, len(data), size), len(data)]:
            chunk = data[start:start + size]
            text = "\n".join(["AWS4-HMAC-SHA256-PAYLOAD", self.stamp, self.scope, signature, empty, hashlib.sha256(chunk).hexdigest()])
            signature = self.sign(text)
            found += f"{len(chunk):x};chunk-signature={signature}\r\n".encode() + chunk + (b"\r\n" if chunk else b"")
        if trailer is not None:
            digest = hashlib.sha256(f"{trailer}\n".encode()).hexdigest()
            text = "\n".join(["AWS4-HMAC-SHA256-TRAILER", self.stamp, self.scope, signature, digest])
            found += f"{trailer}\r\nx-amz-trailer-signature:{self.sign(text)}\r\n".encode()
        return found + b"\r\n"


class Reply:
    """Status, headers in lower case, and body."""

    def __init__(self, status, headers, body):
        self.status, self.headers, self.body = status, headers, body

    @property
    def code(self):
        """The code of an error."""
        return self.body.decode().partition("<Code>")[2].partition("</Code>")[0]

    def all(self, name):
        """The texts of all members of this name."""
        return [it.partition(f"</{name}>")[0] for it in self.body.decode().split(f"<{name}>")[1:]]


class Client:
    """One connection."""

    def __init__(self, reader, writer):
        self.reader, self.writer = reader, writer

    @classmethod
    async def connect(cls, port):
        return cls(*await asyncio.open_connection("127.0.0.1", port))

    async def ask(self, method, path, body=b"", query=(), signer=None, payload=None, sent=None, unsigned=(), **more):
        """Asks, signed by the owner where nobody else is named."""
        query, more = list(query), {name.replace("_", "-"): value for name, value in more.items()}
        headers = (signer or Signer()).headers(method, path, query, body, more, payload)
        return await self.send(method, path, body if sent is None else sent, query, {**headers, **dict(unsigned)})

    async def send(self, method, path, body, query, headers):
        line = encoded(path, "/") + ("?" + "&".join(f"{encoded(k)}={encoded(v)}" for k, v in query) if query else "")
        given = {"content-length": str(len(body)), **headers} if "transfer-encoding" not in headers else headers
        head = "".join(f"{name}: {value}\r\n" for name, value in given.items())
        self.writer.write(f"{method} {line} HTTP/1.1\r\n{head}\r\n".encode() + body)
        return await self.reply(method)

    async def reply(self, method="GET"):
        first, *lines = (await self.reader.readuntil(b"\r\n\r\n")).decode("latin-1")[:-4].split("\r\n")
        headers = {name.lower(): value for name, _, value in (line.partition(": ") for line in lines)}
        length = 0 if method == "HEAD" else int(headers.get("content-length", 0))
        return Reply(int(first.split()[1]), headers, await self.reader.readexactly(length))

    async def is_ended(self):
        return await asyncio.wait_for(self.reader.read(1), 30) == b""


class Gatewayed:
    """A gateway over a store in memory, in a block."""

    def __init__(self, stores=None):
        self.stores = stores or PlainStores()

    async def __aenter__(self):
        self.store = await self.stores.start()
        keys = {key.access: key for key in (OWNER, READER)}
        self.gateway = Gateway(self.store, keys, self.stores.window, None)
        self.server = Server(self.gateway, "127.0.0.1", 0, None)
        await self.server.start()
        self.clients = []
        return self

    async def connect(self):
        self.clients.append(await Client.connect(self.server.port))
        return self.clients[-1]

    async def __aexit__(self, *_):
        for it in self.clients:
            it.writer.close()
        await self.server.close(5)
        await self.store.close()


def ago(**age):
    return datetime.now(timezone.utc) - timedelta(**age)
