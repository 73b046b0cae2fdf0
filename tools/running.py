"""A running server as its operator sees it from the same machine, and the gateway in front. It has its process, options, files,
commands, metrics, and sessions with it."""
import contextlib
import http.client
import json
import os
import pathlib
import re
import socket
import ssl
import struct
import subprocess
import time
import tomllib

from terminal import Terminal, proxy_header

# The longest wait in seconds for an answer.
BOUND = 30
# Options that the command line may have in an older form, and the form of today.
OLDER = {"port": "listen"}


def given_words(words):
    """The options among the words of a command line, those without a value as True."""
    found = {}
    for word, after in zip(words, [*words[1:], "--"]):
        if word.startswith("--"):
            name, _, value = word[2:].partition("=")
            found[OLDER.get(name, name)] = value or (True if after.startswith("--") else after)
    return found


class Running:
    """The server of an administrator's socket."""

    def __init__(self, admin, control):
        self.admin, self.control = pathlib.Path(admin), control
        with socket.socket(socket.AF_UNIX) as connection:
            connection.connect(str(admin))
            peer = connection.getsockopt(socket.SOL_SOCKET, socket.SO_PEERCRED, struct.calcsize("3i"))
        self.pid, self.user, _ = struct.unpack("3i", peer)
        self.process = pathlib.Path(f"/proc/{self.pid}")
        self.program = pathlib.Path(os.readlink(self.process / "exe"))
        line = given_words((self.process / "cmdline").read_text().split("\0")[1:-1])
        self.config = self.path(line["config"]) if "config" in line else None
        file = tomllib.loads(self.config.read_text()) if self.config else {}
        self.options = {**{name: str(value) for name, value in file.items()}, **line}

    def path(self, name):
        """A path as the server reads it."""
        return pathlib.Path(os.readlink(self.process / "cwd")) / name

    def file(self, option):
        """The path that an option names, or nothing."""
        return self.path(self.options[option]) if option in self.options else None

    def address(self, option, default=None):
        """Host and port that an option names; nothing without it, or if it names a path."""
        text = self.options.get(option, default)
        found = re.fullmatch(r"(?:\[?([^\[\]]*)\]?:)?(\d+)", text or "")
        return (found[1] or "127.0.0.1", int(found[2])) if found else None

    def order(self, *words):
        """The lines of the answer to a command, of which the last is DONE or a fault."""
        ran = subprocess.run([*self.control, self.admin, *words], capture_output=True, text=True, timeout=BOUND * 20)
        return ran.stdout.splitlines() or [ran.stderr.strip()]

    def entries(self):
        """How many entries all shards have."""
        return sum(int(line.split()[2]) for line in self.order("STATS") if line.startswith("ENTRIES "))

    def metrics(self):
        """The samples of the page of metrics by their names with labels; none without --metrics."""
        address = self.address("metrics")
        if not address:
            return {}
        with contextlib.closing(http.client.HTTPConnection(*address, timeout=BOUND)) as client:
            client.request("GET", "/metrics")
            lines = client.getresponse().read().decode().splitlines()
        return {name: float(value) for name, _, value in (line.rpartition(" ") for line in lines if line and not line.startswith("#"))}

    def header(self, user, authorisation):
        """The header that a gateway would send for this user."""
        whose = {"user": user, "authorisation": authorisation}.get(self.options.get("proxy"))
        return proxy_header(whose).encode("latin-1") if whose else b""

    def terminal(self, user, authorisation):
        """A session in which this user may ask."""
        host, port = self.address("listen", "127.0.0.1:7161")
        terminal = Terminal(port, host, BOUND)
        terminal.connection.sendall(self.header(user, authorisation))
        return terminal

    def client(self, user, authorisation):
        """A connection over HTTP in which this user may ask; nothing without --http."""
        address = self.address("http")
        if not address:
            return None
        client = http.client.HTTPConnection(*address, timeout=BOUND)
        client.connect()
        client.sock.sendall(self.header(user, authorisation))
        return client


def request(client, path, members, tag=None):
    """The reply to a question over HTTP, as its JSON is read."""
    headers = {"Content-Type": "application/json", **({"Idempotency-Key": tag} if tag else {})}
    client.request("POST", f"/v1/{path}", json.dumps(members), headers)
    return json.loads(client.getresponse().read())


def certificate(host, port, authority):
    """The version of TLS of the gateway at this address, and how many days its certificate is still valid. It is asked
    without a certificate of a client, so it may end the connection after the handshake."""
    context = ssl.create_default_context(cafile=authority)
    with socket.create_connection((host, port), BOUND) as plain, context.wrap_socket(plain, server_hostname=host) as secure:
        ends = ssl.cert_time_to_seconds(secure.getpeercert()["notAfter"])
        return secure.version(), (ends - time.time()) / 86_400


def is_refused(host, port, authority, newest=ssl.TLSVersion.TLSv1_3):
    """Whether the gateway serves nothing to a client without a certificate, by TLS up to this version."""
    context = ssl.create_default_context(cafile=authority)
    context.maximum_version = newest
    try:
        with socket.create_connection((host, port), BOUND) as plain, context.wrap_socket(plain, server_hostname=host) as secure:
            secure.sendall(b"PING\n")
            return secure.recv(1) == b""
    except (ssl.SSLError, ConnectionError):
        return True
    except TimeoutError:
        return False
