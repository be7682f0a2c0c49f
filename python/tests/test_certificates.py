"""The readme's certificates are made as it says, and serve a bridge and its clients."""
import os
import re
import subprocess
import unittest

import s4d

from .bridged import PACKAGE, PATIENCE, Bridged, free_port, needs_openssl


def recipe():
    """The lines of the readme that make certificates."""
    text = (PACKAGE / "README.md").read_text(encoding="utf-8")
    return re.search(r"### Certificates\n.*?\n((?:    [^\n]*\n)+)", text, re.S)[1]


@needs_openssl
class Recipe(Bridged):
    def setUp(self):
        super().setUp()
        self.run_in_folder(recipe())
        self.port = free_port()
        words = re.search(r"`--tls 0\.0\.0\.0:7401 (--cert .*?)`", (PACKAGE / "README.md").read_text(encoding="utf-8"), re.S)[1].split()
        self.words = [word if word.startswith("--") else self.folder / word for word in words]

    def run_in_folder(self, script):
        subprocess.run(["sh", "-e", "-c", script], cwd=self.folder, stdin=subprocess.DEVNULL, capture_output=True, check=True)

    def tls(self, name):
        return s4d.Tls(*(f"{self.folder}/{file}" for file in ("ca.pem", f"{name}.pem", f"{name}.key")))

    def drive(self, name):
        return s4d.Drive.connect(f"tls:localhost:{self.port}", PATIENCE, tls=self.tls(name))

    def test_each_client_has_its_role(self):
        self.start("--tls", f"127.0.0.1:{self.port}", *self.words, unix=False)
        with self.drive("alice") as client:
            client.create(b"note")
        with self.drive("keeper") as admin:
            admin.create(b"note")
        self.assertEqual(self.wait_for_line(event="session", role="client")["peer"]["name"], "alice")
        self.assertEqual(self.wait_for_line(event="session", role="admin")["peer"]["name"], "keeper")

    def test_a_client_makes_no_certificates(self):
        self.run_in_folder("""export OPENSSL_CONF=/dev/null
            openssl req -newkey ec -pkeyopt ec_paramgen_curve:P-256 -nodes -subj /CN=keeper -keyout forged.key -out forged.csr
            openssl x509 -req -in forged.csr -CA alice.pem -CAkey alice.key -CAcreateserial -days 2 -out forged.pem
            cat alice.pem >> forged.pem""")
        self.start("--tls", f"127.0.0.1:{self.port}", *self.words, unix=False)
        with self.assertRaisesRegex(s4d.NotAsked, "the certificate was refused"), self.drive("forged") as it:
            it.create(b"note")
        with self.drive("alice") as client:
            client.create(b"note")

    def test_keys_are_read_by_their_owner_alone(self):
        keys = sorted(path for path in self.folder.iterdir() if path.suffix == ".key")
        self.assertEqual([path.name for path in keys], ["alice.key", "ca.key", "keeper.key", "localhost.key"])
        self.assertEqual({os.stat(path).st_mode & 0o77 for path in keys}, {0})


if __name__ == "__main__":
    unittest.main()
