"""A stand-in for etcd, for tests of servers that share a log: one store in memory. It carries out requests of /v3/kv/txn and
/v3/kv/range whole, one after the other, in the form of etcd's JSON gateway. Nothing of it is replicated or kept."""
import base64
import http.server
import json
import threading

CLUSTER = "trial"

# The keys of a log that begins, after the name of the cluster, with their values.
BEGUN = {"owner": "-", "entries/end": "0", "entries/trimmed": "0", "users/end": "0", "users/trimmed": "0"}


def bytes_of(text):
    return base64.b64decode(text or "")


def text_of(value):
    return base64.b64encode(value).decode()


class Engine:
    """The store, and a server of it at a port of 127.0.0.1. It has no key, if it is empty. Else it has the keys of a cluster without
    an owner, whose log of entries has these blocks, each some lines."""

    def __init__(self, *blocks, cluster=CLUSTER, empty=False, port=0):
        self.cluster, self.values = cluster, {}
        # Each block that was ever put.
        self.blocks = {}
        self.lock, engine = threading.Lock(), self
        for key, value in () if empty else BEGUN.items():
            self.put(key, value)
        first = 0
        for number, lines in enumerate(blocks, 1):
            count = lines.count("\n")
            self.put(f"entries/block/{number:020}", f"a.0 {number} {first} {count}\n{lines}")
            self.put("entries/end", str(number))
            first += count

        class Handler(http.server.BaseHTTPRequestHandler):
            protocol_version = "HTTP/1.1"

            def do_POST(self):
                asked = json.loads(self.rfile.read(int(self.headers["content-length"])))
                with engine.lock:
                    answer = json.dumps(engine.transaction(asked) if self.path == "/v3/kv/txn" else engine.range(asked)).encode()
                self.send_response(200)
                self.send_header("content-length", str(len(answer)))
                self.end_headers()
                self.wfile.write(answer)

            def log_message(self, *_):
                pass

        self.server = http.server.ThreadingHTTPServer(("127.0.0.1", port), Handler)
        self.server.daemon_threads = True
        # A server that is killed breaks its connections.
        self.server.handle_error = lambda *_: None
        self.address = f"127.0.0.1:{self.server.server_address[1]}"
        threading.Thread(target=self.server.serve_forever, daemon=True).start()

    def put(self, key, text):
        """Gives a key of the cluster a value."""
        with self.lock:
            self.keep(f"{self.cluster}/{key}".encode(), text.encode())

    def keep(self, key, value):
        self.values[key] = value
        if b"/block/" in key:
            self.blocks[key] = value

    def keys(self, asked):
        """The keys that a request names: one, or those of a range."""
        first, past = bytes_of(asked["key"]), bytes_of(asked.get("range_end"))
        return sorted(key for key in self.values if first <= key < past) if past else [first] if first in self.values else []

    def range(self, asked):
        found = [{"key": text_of(key), "value": text_of(self.values[key])} for key in self.keys(asked)]
        return {"header": {}, **({"kvs": found} if found else {})}

    def holds(self, compare):
        """Whether a comparison holds. It compares the key's value, or its revision of creation, which is 0 for a key that is not there."""
        if compare["target"] == "CREATE":
            return bool(self.keys(compare)) == (compare["result"] == "GREATER")
        return self.values.get(bytes_of(compare["key"])) == bytes_of(compare["value"])

    def transaction(self, asked):
        succeeded = all(map(self.holds, asked.get("compare", [])))
        responses = []
        for step in asked.get("success" if succeeded else "failure", []):
            if put := step.get("requestPut"):
                self.keep(bytes_of(put["key"]), bytes_of(put["value"]))
                responses.append({"response_put": {}})
            elif delete := step.get("requestDeleteRange"):
                for key in self.keys(delete):
                    del self.values[key]
                responses.append({"response_delete_range": {}})
            else:
                responses.append({"response_range": self.range(step["requestRange"])})
        return {"header": {}, **({"succeeded": True} if succeeded else {}), "responses": responses}

    def lines(self, log):
        """The lines of a log from its beginning on, trimmed or not: those of its blocks, each without its first line."""
        with self.lock:
            front = f"{self.cluster}/{log}/block/".encode()
            return b"".join(self.blocks[key].partition(b"\n")[2] for key in sorted(self.blocks) if key.startswith(front)).decode("latin-1")

    def number(self, key):
        with self.lock:
            return int(self.values[f"{self.cluster}/{key}".encode()])

    def owner(self):
        """The name of the server that owns the logs."""
        with self.lock:
            return self.values[f"{self.cluster}/owner".encode()]

    def close(self):
        self.server.shutdown()
        self.server.server_close()
