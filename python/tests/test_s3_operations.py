"""The list of operations in STORE.md, beside what the gateway answers to each operation that botocore knows."""
import importlib.util
import pathlib
import re
import unittest

from s4d.s3.stubs import MISSING

from .test_s3 import with_client

STORE = pathlib.Path(__file__).resolve().parents[1] / "STORE.md"
REFUSED = ("NotImplemented", "MethodNotAllowed")
VALUES = {"uploadId": "none", "partNumber": "1", "id": "1", "x-amz-copy-source": "/one/k", "x-amz-object-attributes": "ETag"}

needs_botocore = unittest.skipUnless(importlib.util.find_spec("botocore"), "botocore isn't installed")


def table():
    """The names of the operations in each item of the list."""
    items = re.findall(r"^- \*\*(Served|Stubs)\*\*: (.*\n(?:  .*\n)*)", STORE.read_text(encoding="utf-8"), re.M)
    return {kind: set(re.split(r",\s+", names.strip())) for kind, names in items}


def model():
    """The model of S3 that botocore has."""
    from botocore.loaders import Loader
    return Loader().load_service_model("s3", "service-2")


def request_of(operation, shapes):
    """Method, path, query and headers of a request for an operation, with no more than what it must have."""
    path, _, parts = operation["http"]["requestUri"].replace("{Bucket}", "one").replace("{Key+}", "k").partition("?")
    query = [tuple((it + "=").split("=")[:2]) for it in parts.split("&") if it]
    shape = shapes[operation["input"]["shape"]] if "input" in operation else {}
    members = shape.get("members", {})
    needed = [(members[it]["location"], members[it]["locationName"]) for it in shape.get("required", ()) if "location" in members[it]]
    query += [(name, VALUES.get(name, "x")) for where, name in needed if where == "querystring"]
    headers = {name.replace("-", "_"): VALUES.get(name, "x") for where, name in needed if where == "header"}
    return operation["http"]["method"], path if path.startswith(("/one", "/Write")) or path == "/" else f"/one{path}", query, headers


@needs_botocore
class Operations(unittest.TestCase):
    def test_all(self):
        found, known = model(), table()
        answers = {}

        async def work(_, it):
            for name, operation in found["operations"].items():
                await it.ask("PUT", "/one/k", b"mill")
                method, path, query, headers = request_of(operation, found["shapes"])
                reply = await it.ask(method, path, b"", query, **headers)
                self.assertNotEqual(reply.status, 500, name)
                answers[name] = (reply.status, reply.code)
                await it.ask("PUT", "/one")

        with_client(work)
        refused = {name for name, (_, code) in answers.items() if code in REFUSED}
        self.assertEqual(refused, set(answers) - known["Served"] - known["Stubs"])
        newer = {"ListDirectoryBuckets"}  # than some that are installed
        self.assertEqual((known["Served"] | known["Stubs"]) - set(answers) - newer, set())
        for name in known["Stubs"] & set(answers):
            status, code = answers[name]
            self.assertTrue(status < 300 or code in MISSING.values() or code == "AccessControlListNotSupported", (name, status, code))

    def test_what_is_not_known_changes_nothing(self):
        async def work(_, it):
            await it.ask("PUT", "/two")
            await it.ask("PUT", "/one/k", b"mill")
            for method, path, part in (("PUT", "/one/k", "renameObject"), ("PUT", "/one/k", "anything"),
                                       ("DELETE", "/two", "metadataTable"), ("DELETE", "/one/k", "other"), ("GET", "/one", "session")):
                self.assertEqual((await it.ask(method, path, query=[(part, "")])).code, "NotImplemented", part)
            self.assertEqual((await it.ask("GET", "/one/k", query=[("busted", "1"), ("x-id", "GetObject")])).body, b"mill")
            self.assertEqual((await it.ask("GET", "/")).all("Name"), ["one", "two"])

        with_client(work)


if __name__ == "__main__":
    unittest.main()
