"""Programs that people have, against the gateway over a store in memory, in a longer run: where STORE_CLIENTS=1 is set. Each is
skipped where it isn't installed.
"""
import asyncio
import contextlib
import importlib.util
import os
import pathlib
import shutil
import subprocess
import tempfile
import threading
import time
import unittest
import urllib.error
import urllib.request
from datetime import datetime, timezone

from s4d.moments import machine_time
from s4d.s3.gateway import Gateway
from s4d.s3.server import Server

from .bridged import PATIENCE
from .s3_client import OWNER, Gatewayed
from .test_store import BYTES

LISTS = 10_000  # of an intruder

is_long = unittest.skipUnless(os.environ.get("STORE_CLIENTS"), "clients of S3 are tried where STORE_CLIENTS=1 is set")
needs_mounts = unittest.skipUnless(os.access("/dev/fuse", os.W_OK) and os.geteuid() == 0, "there is no /dev/fuse, or who runs this may not mount")
needs_boto3 = unittest.skipUnless(importlib.util.find_spec("boto3"), "boto3 isn't installed")


def needs(name):
    return unittest.skipUnless(shutil.which(name), f"{name} isn't installed")


@is_long
class Clients(unittest.TestCase):
    """A gateway in a thread of its own."""

    def setUp(self):
        folder = tempfile.TemporaryDirectory()
        self.addCleanup(folder.cleanup)
        self.folder = pathlib.Path(folder.name)
        self.is_ready, self.ended = threading.Event(), None
        self.thread = threading.Thread(target=lambda: asyncio.run(self.serve()), daemon=True)
        self.thread.start()
        self.assertTrue(self.is_ready.wait(PATIENCE))
        self.addCleanup(self.end)

    async def serve(self):
        self.loop, self.ended = asyncio.get_running_loop(), asyncio.Event()
        async with Gatewayed() as self.gateway:
            self.url = f"http://127.0.0.1:{self.gateway.server.port}"
            self.is_ready.set()
            await self.ended.wait()

    def end(self):
        self.loop.call_soon_threadsafe(self.ended.set)
        self.thread.join(PATIENCE)

    def url_at(self, moment):
        """Where a gateway is by which all is read as it was at a moment."""
        async def start():
            gateway = Gateway(self.gateway.store, {OWNER.access: OWNER}, self.gateway.stores.window, None, moment)
            server = Server(gateway, "127.0.0.1", 0, None)
            await server.start()
            return server

        server = asyncio.run_coroutine_threadsafe(start(), self.loop).result(PATIENCE)
        self.addCleanup(lambda: asyncio.run_coroutine_threadsafe(server.close(1), self.loop).result(PATIENCE))
        return f"http://127.0.0.1:{server.port}"

    def run_program(self, *words, statuses=(0,), **environment):
        """What a program prints, which ends by one of these statuses."""
        ran = subprocess.run(list(map(str, words)), env=self.environment(**environment), stdout=subprocess.PIPE,
                             stderr=subprocess.STDOUT, timeout=5 * PATIENCE, check=False)
        self.assertIn(ran.returncode, statuses, ran.stdout.decode())
        return ran.stdout.decode()

    def environment(self, **more):
        known = {"AWS_ACCESS_KEY_ID": OWNER.access, "AWS_SECRET_ACCESS_KEY": OWNER.secret, "AWS_DEFAULT_REGION": "us-east-1",
                 "AWS_EC2_METADATA_DISABLED": "true", "AWS_CONFIG_FILE": "/dev/null", "HOME": str(self.folder)}
        return {**{name: value for name, value in os.environ.items() if not name.startswith("AWS_")}, **known, **more}

    @contextlib.contextmanager
    def mounted(self, *words, **environment):
        """A folder that a program has mounted as long as the block goes on; `{}` in its words is the folder."""
        folder = pathlib.Path(tempfile.mkdtemp(dir=self.folder))
        with open(self.folder / "said", "wb+") as said:
            mount = subprocess.Popen([str(word).format(folder) for word in words], env=self.environment(**environment), stdout=said,
                                     stderr=subprocess.STDOUT, stdin=subprocess.DEVNULL)
            try:
                end = time.monotonic() + PATIENCE
                while not folder.is_mount():
                    said.seek(0)
                    self.assertTrue(mount.poll() is None and time.monotonic() < end, said.read().decode())
                    time.sleep(0.05)
                yield folder
            finally:
                subprocess.run(["umount", folder], check=False, stderr=subprocess.DEVNULL)
                with contextlib.suppress(subprocess.TimeoutExpired):
                    mount.wait(PATIENCE)
                subprocess.run(["umount", "-l", folder], check=False, stderr=subprocess.DEVNULL)
                mount.kill()
                mount.wait()

    def make_files(self):
        """A folder with files of some sizes."""
        folder = self.folder / "files"
        (folder / "deep").mkdir(parents=True)
        for name, size in (("empty", 0), ("small", 10), ("deep/long", 300_000), ("deep/ü b", 500)):
            (folder / name).write_bytes(BYTES[:size])
        return folder

    def wait_for_sizes(self, bucket, folder):
        """Waits until a bucket has the files of a folder."""
        wanted = {str(it.relative_to(folder)): it.stat().st_size for it in folder.rglob("*") if it.is_file()}
        end = time.monotonic() + PATIENCE
        while self.sizes(bucket) != wanted:
            self.assertLess(time.monotonic(), end, "files that were written aren't put")
            time.sleep(0.05)

    def sizes(self, bucket):
        async def look():
            found = self.gateway.store.bucket(bucket)
            return {key: found.current(key).version.size for key in found.live if not key.endswith("/")}

        return asyncio.run_coroutine_threadsafe(look(), self.loop).result(PATIENCE)

    def check_files(self, folder):
        found = {str(it.relative_to(folder)): it.stat().st_size for it in folder.rglob("*") if it.is_file()}
        self.assertEqual(found, {"empty": 0, "small": 10, "deep/long": 300_000, "deep/ü b": 500})


@needs_boto3
class Boto3(Clients):
    def client(self, **more):
        import boto3
        return boto3.client("s3", endpoint_url=self.url, aws_access_key_id=OWNER.access, aws_secret_access_key=OWNER.secret,
                            region_name="us-east-1", **more)

    def test_objects(self):
        it = self.client()
        it.create_bucket(Bucket="one", ObjectLockEnabledForBucket=True)
        self.assertEqual([row["Name"] for row in it.list_buckets()["Buckets"]], ["one"])
        first = it.put_object(Bucket="one", Key="a/ü", Body=BYTES[:200_000], Metadata={"who": "me"}, ContentType="a/b")["VersionId"]
        second = it.put_object(Bucket="one", Key="a/ü", Body=b"moor")["VersionId"]
        self.assertEqual(it.get_object(Bucket="one", Key="a/ü", Range="bytes=1-2")["Body"].read(), b"oo")
        old = it.get_object(Bucket="one", Key="a/ü", VersionId=first)
        self.assertEqual((old["Body"].read(), old["Metadata"], old["ObjectLockMode"]), (BYTES[:200_000], {"who": "me"}, "COMPLIANCE"))
        marker = it.delete_object(Bucket="one", Key="a/ü")
        self.assertTrue(marker["DeleteMarker"])
        with self.assertRaises(it.exceptions.NoSuchKey):
            it.get_object(Bucket="one", Key="a/ü")
        rows = it.list_object_versions(Bucket="one", Prefix="a/")
        self.assertEqual([row["VersionId"] for row in rows["Versions"]], [second, first])
        self.assertEqual([row["VersionId"] for row in rows["DeleteMarkers"]], [marker["VersionId"]])
        with self.assertRaisesRegex(it.exceptions.ClientError, "AccessDenied"):
            it.delete_object(Bucket="one", Key="a/ü", VersionId=first)
        it.copy_object(Bucket="one", Key="a/ü", CopySource={"Bucket": "one", "Key": "a/ü", "VersionId": first})
        self.assertEqual(it.get_object(Bucket="one", Key="a/ü")["Body"].read(), BYTES[:200_000])
        deleted = it.delete_objects(Bucket="one", Delete={"Objects": [{"Key": "a/ü"}, {"Key": "none"}]})
        self.assertEqual(sorted(row["Key"] for row in deleted["Deleted"]), ["a/ü", "none"])

    def test_pages_and_parts(self):
        it = self.client()
        it.create_bucket(Bucket="one")
        for number in range(7):
            it.put_object(Bucket="one", Key=f"{number % 2}/{number}", Body=b"")
        pages = it.get_paginator("list_objects_v2").paginate(Bucket="one", PaginationConfig={"PageSize": 2})
        self.assertEqual([row["Key"] for page in pages for row in page["Contents"]],
                         ["0/0", "0/2", "0/4", "0/6", "1/1", "1/3", "1/5"])
        prefixes = it.list_objects_v2(Bucket="one", Delimiter="/")["CommonPrefixes"]
        self.assertEqual([row["Prefix"] for row in prefixes], ["0/", "1/"])
        pages = it.get_paginator("list_object_versions").paginate(Bucket="one", PaginationConfig={"PageSize": 3})
        self.assertEqual(sum(len(page["Versions"]) for page in pages), 7)
        upload = it.create_multipart_upload(Bucket="one", Key="parts")["UploadId"]
        data = BYTES * 5
        etags = [it.upload_part(Bucket="one", Key="parts", UploadId=upload, PartNumber=number, Body=part)["ETag"]
                 for number, part in ((1, data), (2, b"end"))]
        it.complete_multipart_upload(Bucket="one", Key="parts", UploadId=upload, MultipartUpload={
            "Parts": [{"PartNumber": number, "ETag": etag} for number, etag in enumerate(etags, 1)]})
        self.assertEqual(it.get_object(Bucket="one", Key="parts")["Body"].read(), data + b"end")

    def test_presigned(self):
        from botocore.client import Config
        it = self.client(config=Config(signature_version="s3v4"))
        it.create_bucket(Bucket="one")
        url = it.generate_presigned_url("put_object", Params={"Bucket": "one", "Key": "a/ü b"}, ExpiresIn=60)
        with urllib.request.urlopen(urllib.request.Request(url, BYTES[:1_000], method="PUT")) as reply:
            self.assertEqual(reply.status, 200)
        url = it.generate_presigned_url("get_object", Params={"Bucket": "one", "Key": "a/ü b", "ResponseContentType": "a/b"}, ExpiresIn=60)
        with urllib.request.urlopen(url) as reply:
            self.assertEqual((reply.read(), reply.headers["content-type"]), (BYTES[:1_000], "a/b"))
        with self.assertRaises(urllib.error.HTTPError) as caught:
            urllib.request.urlopen(url.replace("Expires=60", "Expires=61"))
        self.assertEqual(caught.exception.code, 403)
        caught.exception.close()

    def test_files_tags_and_a_moment(self):
        it, path = self.client(), self.folder / "long"
        path.write_bytes(BYTES * 13)
        it.create_bucket(Bucket="one")
        it.upload_file(str(path), "one", "long", ExtraArgs={"Tagging": "a=b", "Metadata": {"who": "me"}})  # in parts of 8 MiB
        it.download_file("one", "long", str(self.folder / "back"))
        self.assertEqual((self.folder / "back").read_bytes(), BYTES * 13)
        self.assertIn("-2", it.head_object(Bucket="one", Key="long")["ETag"])
        it.put_object_tagging(Bucket="one", Key="long", Tagging={"TagSet": [{"Key": "c", "Value": "d"}]})
        self.assertEqual(it.get_object_tagging(Bucket="one", Key="long")["TagSet"], [{"Key": "c", "Value": "d"}])
        it.copy({"Bucket": "one", "Key": "long"}, "one", "copy")  # by UploadPartCopy
        self.assertEqual(it.head_object(Bucket="one", Key="copy")["ContentLength"], len(BYTES) * 13)
        time.sleep(0.01)
        before = machine_time()
        time.sleep(0.01)
        it.delete_object(Bucket="one", Key="long")
        past = self.client()
        past.meta.events.register("before-sign.s3", lambda request, **_: request.headers.add_header("x-s4-at", str(before)))
        self.assertEqual([row["Key"] for row in past.list_objects_v2(Bucket="one")["Contents"]], ["copy", "long"])
        self.assertEqual(past.get_object(Bucket="one", Key="long", Range="bytes=-3")["Body"].read(), BYTES[-3:])
        self.assertEqual([row["Key"] for row in it.list_objects_v2(Bucket="one")["Contents"]], ["copy"])


@needs("aws")
class Awscli(Clients):
    def aws(self, *words, **more):
        return self.run_program("aws", "--endpoint-url", self.url, *words, **more)

    def test_copies(self):
        files = self.make_files()
        self.aws("s3", "mb", "s3://one")
        self.aws("s3", "cp", "--recursive", files, "s3://one/files")
        self.assertEqual(len(self.aws("s3", "ls", "--recursive", "s3://one").splitlines()), 4)
        self.aws("s3", "rm", "--recursive", "s3://one/files/deep")
        self.assertEqual(len(self.aws("s3", "ls", "--recursive", "s3://one").splitlines()), 2)
        self.aws("s3", "sync", files, "s3://one/files")
        self.aws("s3", "sync", "s3://one/files", self.folder / "back")
        self.check_files(self.folder / "back")

    def test_an_intruder(self):
        """Who has a client's key overwrites and deletes all, and each version; the owner reads as it was before."""
        files = self.make_files()
        self.aws("s3", "mb", "s3://one")
        self.aws("s3", "sync", files, "s3://one/files")
        time.sleep(0.01)
        before = machine_time()
        time.sleep(0.01)
        self.aws("s3", "cp", files / "small", "s3://one/files/deep/long")
        self.aws("s3", "rm", "--recursive", "s3://one/files")
        id = self.aws("s3api", "list-object-versions", "--bucket", "one", "--prefix", "files/deep/long", "--query", "Versions[-1].VersionId",
                      "--output", "text").strip()
        said = self.aws("s3api", "delete-object", "--bucket", "one", "--key", "files/deep/long", "--version-id", id, statuses=(254, 255))
        self.assertIn("AccessDenied", said)
        self.assertEqual(self.aws("s3", "ls", "--recursive", "s3://one", statuses=(0, 1)), "")
        self.run_program("aws", "--endpoint-url", self.url_at(before), "s3", "sync", "s3://one/files", self.folder / "back")
        self.check_files(self.folder / "back")


@needs("s3cmd")
class S3cmd(Clients):
    def test_copies(self):
        files = self.make_files()
        host = self.url.partition("//")[2]
        words = ["s3cmd", "--no-ssl", f"--host={host}", f"--host-bucket={host}", f"--access_key={OWNER.access}",
                 f"--secret_key={OWNER.secret}"]
        self.run_program(*words, "mb", "s3://one")
        self.run_program(*words, "put", "--recursive", f"{files}/", "s3://one/files/")
        (self.folder / "back").mkdir()
        self.run_program(*words, "get", "--recursive", "s3://one/files/", f"{self.folder}/back/")
        self.check_files(self.folder / "back")
        for asked in ("s3://one", "s3://one/files/small"):  # which asks for policies, CORS, owners and the like
            self.assertRegex(self.run_program(*words, "info", asked), r"(?i)policy: +none\n *cors: +none\n")
        self.run_program(*words, "del", "s3://one/files/small")
        self.assertEqual(len(self.run_program(*words, "ls", "--recursive", "s3://one").splitlines()), 3)


class Remotes(Clients):
    """Rclone's words for the gateway."""

    def remote(self):
        return {"RCLONE_CONFIG": "/dev/null", "RCLONE_CONFIG_S4_TYPE": "s3", "RCLONE_CONFIG_S4_PROVIDER": "Other",
                "RCLONE_CONFIG_S4_ENDPOINT": self.url, "RCLONE_CONFIG_S4_ACCESS_KEY_ID": OWNER.access,
                "RCLONE_CONFIG_S4_SECRET_ACCESS_KEY": OWNER.secret}

    def rclone(self, *words, **more):
        return self.run_program("rclone", *words, "--retries=1", **more, **self.remote())


@needs("rclone")
class Rclone(Remotes):
    def flood(self, lists, connections=8):
        """Asks for so many lists, by the client's key, on some connections: the statuses, once all are answered."""
        async def ask(count):
            it = await self.gateway.connect()
            return {(await it.ask("GET", "/one", query=[("list-type", "2")] if number % 2 else [("versions", "")])).status
                    for number in range(count)}

        async def all_of():
            return set().union(*await asyncio.gather(*[ask(lists // connections) for _ in range(connections)]))

        return asyncio.run_coroutine_threadsafe(all_of(), self.loop)

    def test_a_moment_before_an_intruder(self):
        """Who has the client's key overwrites, deletes and lists without end; one line gives the owner everything back meanwhile."""
        files = self.make_files()
        self.rclone("mkdir", "s4:one")
        self.rclone("sync", files, "s4:one/files")
        self.rclone("check", files, "s4:one/files")
        time.sleep(1.1)  # its times are whole seconds
        before = datetime.now(timezone.utc).strftime("%Y-%m-%dT%H:%M:%SZ")
        time.sleep(1.1)
        lists = self.flood(LISTS)
        self.rclone("copyto", files / "small", "s4:one/files/deep/long")  # overwritten
        self.rclone("delete", "s4:one/files")
        self.assertEqual(self.rclone("lsf", "-R", "--files-only", "s4:one"), "")
        self.rclone("cleanup", "s4:one")
        self.rclone("copy", "--s3-version-at", before, "s4:one/files", self.folder / "back")
        self.check_files(self.folder / "back")
        self.rclone("sync", self.folder / "back", "s4:one/files")  # and all is there again
        self.rclone("check", "--download", files, "s4:one/files")
        self.assertEqual(lists.result(5 * PATIENCE), {200})

    @needs_mounts
    def test_mounts(self):
        """Files of now, which are written, and those of a moment."""
        files = self.make_files()
        self.rclone("mkdir", "s4:one")
        with self.mounted("rclone", "mount", "s4:one", "{}", "--vfs-cache-mode=full", "--vfs-write-back=0s",
                          f"--cache-dir={self.folder}/cache", **self.remote()) as folder:
            shutil.copytree(files, folder, dirs_exist_ok=True)
            self.check_files(folder)
            self.wait_for_sizes("one", files)  # rclone puts them later, and at its end no more
        self.rclone("check", files, "s4:one")
        time.sleep(1.1)
        before = datetime.now(timezone.utc).strftime("%Y-%m-%dT%H:%M:%SZ")
        time.sleep(1.1)
        self.rclone("delete", "s4:one")
        with self.mounted("rclone", "mount", "s4:one", "{}", "--read-only", f"--s3-version-at={before}", **self.remote()) as folder:
            self.check_files(folder)
            self.assertEqual((folder / "deep/long").read_bytes(), BYTES[:300_000])


@needs("s3fs")
@needs_mounts
class S3fs(Clients):
    def test_files(self):
        """Files are written, read in parts, renamed and deleted, and those of a moment are there as they were."""
        files = self.make_files()
        asyncio.run_coroutine_threadsafe(self.gateway.store.create_bucket("two"), self.loop).result(PATIENCE)

        def s3fs(url):
            return self.mounted("s3fs", "two", "{}", "-f", "-o", f"url={url}", "-o", "use_path_request_style",
                                AWSACCESSKEYID=OWNER.access, AWSSECRETACCESSKEY=OWNER.secret)

        with s3fs(self.url) as folder:
            for name in files.iterdir():
                self.run_program("cp", "-r", name, folder)
            self.check_files(folder)
            (folder / "long").write_bytes(BYTES * 13)
            (folder / "long").rename(folder / "longer")
            self.assertEqual((folder / "longer").read_bytes(), BYTES * 13)
            with open(folder / "longer", "rb") as file:
                file.seek(5_000_000)
                self.assertEqual(file.read(3), (BYTES * 13)[5_000_000:5_000_003])
            (folder / "longer").unlink()
            self.check_files(folder)
        time.sleep(0.01)
        before = machine_time()
        time.sleep(0.01)
        with s3fs(self.url) as folder:
            shutil.rmtree(folder / "deep")
            (folder / "small").write_bytes(b"moor")
            self.assertEqual(sorted(it.name for it in folder.iterdir()), ["empty", "small"])
        with s3fs(self.url_at(before)) as folder:
            self.check_files(folder)
            self.assertEqual((folder / "small").read_bytes(), BYTES[:10])
            with self.assertRaises(OSError):
                (folder / "small").write_bytes(b"moor")


@needs("restic")
class Restic(Clients):
    def test_a_backup(self):
        files = self.make_files()

        def restic(*words, url=self.url):
            return self.run_program("restic", "-r", f"s3:{url}/backups", *words, RESTIC_PASSWORD="mill",
                                    RESTIC_CACHE_DIR=str(self.folder / "cache"))

        restic("init")
        restic("backup", files)
        time.sleep(0.01)
        before = machine_time()
        time.sleep(0.01)
        (files / "small").write_bytes(b"moor")
        restic("backup", files)
        restic("check", "--read-data")
        restic("forget", "--keep-last", "1", "--prune")
        restic("check", "--read-data")
        restic("restore", "latest", "--target", self.folder / "back")
        self.assertEqual((self.folder / "back" / str(files)[1:] / "small").read_bytes(), b"moor")
        self.intrude("backups")
        url = self.url_at(before)  # before the first snapshot was forgotten
        restic("check", "--no-lock", "--read-data", url=url)
        restic("restore", "--no-lock", "latest", "--target", self.folder / "past", url=url)
        self.check_files(self.folder / "past" / str(files)[1:])

    def intrude(self, bucket):
        """Deletes all that is there, by the client's key."""
        async def delete():
            for key in list(self.gateway.store.bucket(bucket).live):
                await self.gateway.store.delete(bucket, key)

        asyncio.run_coroutine_threadsafe(delete(), self.loop).result(PATIENCE)


if __name__ == "__main__":
    unittest.main()
