"""Terminals of a gateway: TLS 1.3, with a certificate of its own, and a new connection where one has ended. One sends lines, the
other asks over HTTP."""
import http.client
import json
import random
import secrets
import ssl
import time

from terminal import TaggedTerminal, Terminal


def tls(certificate, key, authority):
    """The context of connections by TLS 1.3, for the certificate of a client and the authority of a gateway."""
    context = ssl.create_default_context(cafile=authority)
    context.minimum_version = ssl.TLSVersion.TLSv1_3
    context.load_cert_chain(certificate, key)
    return context


class SecureSession(Terminal):
    """One session over TLS."""

    def __init__(self, context, port, name, address, timeout):
        super().__init__(port, address, timeout)
        self.connection = context.wrap_socket(self.connection, server_hostname=name)
        self.replies = self.connection.makefile("r", encoding="ascii", newline="\n")


class SecureTerminal(TaggedTerminal):
    """Sessions one after another. The gateway at this address and port has a certificate for this name."""

    def __init__(self, port, certificate, key, authority, name="localhost", address="127.0.0.1", timeout=60):
        self.context = tls(certificate, key, authority)
        super().__init__(lambda: SecureSession(self.context, port, name, address, timeout))


class HttpTerminal:
    """Questions over HTTP: to a gateway at this name and port with the three files of a client, and else to a trial server."""

    def __init__(self, port, *files, name="localhost", timeout=60):
        self.connection = (
            http.client.HTTPSConnection(name, port, timeout=timeout, context=tls(*files)) if files else http.client.HTTPConnection(name, port, timeout=timeout)
        )

    def ask(self, word, members, patience=60):
        """The reply to this question, or its problem. Where no response comes, or one of status 429 or 503, the same is sent again with
        the same key after a pause that grows. After CHANGED it is sent with a new key. ConnectionError: nothing else came for this
        number of seconds."""
        key, until, pause = secrets.token_hex(8), time.monotonic() + patience, 1
        while True:
            try:
                response = self.ask_once(word, members, key)
                if response.get("fault") == "CHANGED":
                    key = secrets.token_hex(8)
                    continue
                if response.get("status") not in (429, 503):
                    return response
                fault, cause = response["fault"], None
            except (OSError, http.client.HTTPException, ValueError) as failed:
                # A gateway that reaches no server answers with a page, which is no JSON.
                self.connection.close()
                fault = cause = failed
            if time.monotonic() + pause > until:
                raise ConnectionError(f"no reply: {fault}") from cause
            time.sleep(pause * random.uniform(0.8, 1.2))
            pause = min(2 * pause, 60)

    def ask_once(self, word, members, key):
        fields = {"Content-Type": "application/json", "Idempotency-Key": key}
        self.connection.request("POST", f"/v1/{word}", json.dumps(members), fields)
        return json.loads(self.connection.getresponse().read())
