"""Servers that are asked as an administrator: one that runs, or one of our own over a copy of a
store."""

import http.client
import json
import pathlib
import subprocess
import tempfile
import urllib.parse

import messages
import stores

LISTS = {
    "networks": "networks",
    "subnets": "subnets",
    "ports": "ports",
    "routers": "routers",
    "floatingips": "floatingips",
    "security-groups": "security_groups",
}
PROJECT = "trace"


class Refused(Exception):
    """What a server said instead of what was asked."""


class Served:
    """A server at an address, which is asked over one connection a request, so that nobody waits
    for this one."""

    def __init__(self, url):
        self.at = urllib.parse.urlsplit(url)
        if self.at.scheme != "http" or not self.at.hostname:
            raise Refused(f"{url} is no address of a server, such as http://127.0.0.1:9696")

    def exchange(self, method, path, body):
        link = http.client.HTTPConnection(self.at.hostname, self.at.port, timeout=60)
        fields = {"X-Project-Id": PROJECT, "X-Roles": "admin", "Connection": "close"}
        try:
            link.request(method, path, body and json.dumps(body), fields)
            reply = link.getresponse()
            return reply.status, reply.read()
        except (OSError, http.client.HTTPException) as error:
            raise Refused(f"no server answers at {self.at.geturl()}: {error}") from error
        finally:
            link.close()

    def end(self):
        pass


class Copied:
    """A session over a copy of a store and its log."""

    def __init__(self, store, settings):
        self.folder = tempfile.TemporaryDirectory()
        try:
            copy = stores.copy_store(store, self.folder.name)
        except OSError as error:
            raise Refused(f"the store can't be copied: {error}") from error
        words = [
            pathlib.Path(__file__).resolve().parent.parent / "neutron",
            "session",
            "--store",
            copy,
        ]
        self.run = subprocess.Popen(
            [*words, *(["--settings", settings] if settings else [])],
            stdin=subprocess.PIPE,
            stdout=subprocess.PIPE,
        )

    def exchange(self, method, path, body):
        try:
            self.run.stdin.write(messages.request(method, path, body, PROJECT, admin=True))
            self.run.stdin.flush()
            reply = messages.read_reply(self.run.stdout)
        except BrokenPipeError:
            reply = None
        if reply is None:
            raise Refused("bin/neutron gave no answer")
        return reply[0], reply[2]

    def end(self):
        self.run.communicate()
        self.folder.cleanup()


def ask(server, method, path, body=None):
    """What a server replies to a request that it has to accept."""
    status, text = server.exchange(method, path, body)
    said = json.loads(text) if text else None
    if status not in (200, 201, 204):
        raise Refused(f"{method} {path}: {status} {said['NeutronError']['message']}")
    return said


def lists_of(server):
    """All rows, by kind and id."""
    found = {kind: ask(server, "GET", f"/v2.0/{path}")[kind] for path, kind in LISTS.items()}
    return {kind: {row["id"]: row for row in rows} for kind, rows in found.items()}
