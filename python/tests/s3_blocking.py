"""A client of S3 for threads and measurements: one connection, whose requests are signed one by one."""
import http.client

from .s3_client import OWNER, Reply, Signer, encoded

SECONDS = 120  # that an answer may take, on a slow machine too


class BlockingClient:
    """`ask` raises OSError or HTTPException where no whole answer comes; then the next one connects again."""

    def __init__(self, port, key=OWNER, tls=None):
        self.key, self.connection = key, http.client.HTTPConnection("127.0.0.1", port, timeout=SECONDS)
        if tls is not None:
            self.connection = http.client.HTTPSConnection("127.0.0.1", port, timeout=SECONDS, context=tls)

    def ask(self, method, path, body=b"", query=(), **more):
        """Asks; the names of further headers have underscores for hyphens."""
        headers = {name.replace("_", "-"): value for name, value in more.items()}
        signed = Signer(self.key).headers(method, path, list(query), body, headers)
        line = encoded(path, "/") + ("?" + "&".join(f"{encoded(name)}={encoded(value)}" for name, value in query) if query else "")
        try:
            self.connection.request(method, line, body, {**signed, "content-length": str(len(body))})
            reply = self.connection.getresponse()
            found = reply.read()
        except BaseException:
            self.connection.close()
            raise
        return Reply(reply.status, {name.lower(): value for name, value in reply.getheaders()}, found)

    def close(self):
        self.connection.close()

    def __del__(self):
        self.close()
