"""Groups of etcd processes on 127.0.0.1, and calls of them as gRPC over HTTP/2 without encryption: etcd's own protocol, so far as puts need it."""

import http.client
import json
import os
import shutil
import socket
import struct
import subprocess
import tempfile
import time

SERVES_WITHIN = 60
DATA, HEADERS, RST_STREAM, SETTINGS, PING, GOAWAY, WINDOW_UPDATE = 0, 1, 3, 4, 6, 7, 8
END_STREAM, END_HEADERS, ACK = 1, 4, 1


def version():
    """The first line of what `etcd --version` says, or None where it is not installed."""
    program = shutil.which("etcd")
    if program is None:
        return None
    return subprocess.run([program, "--version"], capture_output=True, text=True, check=True).stdout.split("\n")[0]


def free_ports(count):
    """So many ports of TCP at which nobody listens."""
    sockets = [socket.socket() for _ in range(count)]
    for it in sockets:
        it.bind(("127.0.0.1", 0))
    ports = [it.getsockname()[1] for it in sockets]
    for it in sockets:
        it.close()
    return ports


class Group:
    """So many members, with their data in a folder, which is removed at the end. Leaving it ends all processes."""

    def __init__(self, members, folder=None):
        ports = free_ports(2 * members)
        self.clients, self.peers, self.folder, self.processes = ports[:members], ports[members:], folder, []

    def __enter__(self):
        self.room = tempfile.TemporaryDirectory(prefix="etcd-group-", dir=self.folder)
        try:
            for at in range(len(self.clients)):
                self.processes.append(self.start(at))
            self.wait_for_leader()
        except BaseException:
            self.__exit__()
            raise
        return self

    def __exit__(self, *_):
        for it in self.processes:
            it.kill()
            it.wait()
        self.room.cleanup()

    def start(self, at):
        client, peer = f"http://127.0.0.1:{self.clients[at]}", f"http://127.0.0.1:{self.peers[at]}"
        cluster = ",".join(f"m{it}=http://127.0.0.1:{port}" for it, port in enumerate(self.peers))
        words = ["etcd", "--name", f"m{at}", "--data-dir", os.path.join(self.room.name, f"m{at}"), "--listen-client-urls", client, "--advertise-client-urls", client]
        words += ["--listen-peer-urls", peer, "--initial-advertise-peer-urls", peer, "--initial-cluster", cluster, "--logger", "zap", "--log-level", "error"]
        environment = {name: value for name, value in os.environ.items() if not name.startswith("ETCD_")}
        return subprocess.Popen(words, env=environment, stdin=subprocess.DEVNULL, stdout=subprocess.DEVNULL, stderr=subprocess.DEVNULL)

    def wait_for_leader(self):
        """Finds the port at which the leader serves clients."""
        end = time.monotonic() + SERVES_WITHIN
        while time.monotonic() < end:
            for port in self.clients:
                status = status_of(port)
                if status is not None and status.get("leader") == status["header"]["member_id"]:
                    self.leader = port
                    return
            time.sleep(0.1)
        raise SystemExit("etcd has no leader")


def status_of(port):
    """What a member says of itself by its JSON gateway, or None where it does not."""
    connection = http.client.HTTPConnection("127.0.0.1", port, timeout=5)
    try:
        connection.request("POST", "/v3/maintenance/status", "{}")
        answer = connection.getresponse()
        return json.loads(answer.read()) if answer.status == 200 else None
    except OSError:
        return None
    finally:
        connection.close()


def field(number, content):
    """A field of bytes in a protocol buffer; at most 127 bytes of them."""
    return bytes((number << 3 | 2, len(content))) + content


def put_request(key, value):
    """A `PutRequest`: field 1 is the key, field 2 the value."""
    return field(1, key) + field(2, value)


def frame(kind, flags, stream, payload):
    return struct.pack(">I", len(payload))[1:] + struct.pack(">BBI", kind, flags, stream) + payload


def named(prefix, text):
    """A header without indexing: how its name is given, and its value."""
    return prefix + bytes((len(text),)) + text


class Connection:
    """One connection that calls one method, one call at a time."""

    def __init__(self, port, method=b"/etcdserverpb.KV/Put"):
        self.socket = socket.create_connection(("127.0.0.1", port))
        self.socket.setsockopt(socket.IPPROTO_TCP, socket.TCP_NODELAY, 1)
        te = b"\x00\x02te" + bytes((8,)) + b"trailers"
        self.headers = b"\x83\x86" + named(b"\x04", method) + named(b"\x01", b"127.0.0.1") + te + named(b"\x0f\x10", b"application/grpc")
        # the widest windows, so that none has to be widened later
        settings = struct.pack(">HI", 4, 2**31 - 1)
        window = struct.pack(">I", 2**31 - 1 - 65_535)
        self.socket.sendall(b"PRI * HTTP/2.0\r\n\r\nSM\r\n\r\n" + frame(SETTINGS, 0, 0, settings) + frame(WINDOW_UPDATE, 0, 0, window))
        self.stream, self.rest, self.messages = -1, b"", 0

    def close(self):
        self.socket.close()

    def send(self, message):
        """Begins a call."""
        self.stream += 2
        self.messages = 0
        body = b"\0" + struct.pack(">I", len(message)) + message
        self.socket.sendall(frame(HEADERS, END_HEADERS, self.stream, self.headers) + frame(DATA, END_STREAM, self.stream, body))

    def take(self):
        """Reads what has come. True where that ends the call, which gave a message; SystemExit where it gave none."""
        came = self.socket.recv(65536)
        if not came:
            raise SystemExit("etcd closed a connection")
        self.rest += came
        is_done = False
        while len(self.rest) >= 9:
            length = int.from_bytes(self.rest[:3], "big")
            if len(self.rest) < 9 + length:
                break
            kind, flags, stream = struct.unpack(">BBI", self.rest[3:9])
            payload, self.rest = self.rest[9 : 9 + length], self.rest[9 + length :]
            is_done = self.hear(kind, flags, stream, payload) or is_done
        return is_done

    def hear(self, kind, flags, stream, payload):
        """One frame."""
        if kind == SETTINGS and not flags & ACK:
            self.socket.sendall(frame(SETTINGS, ACK, 0, b""))
        elif kind == PING and not flags & ACK:
            self.socket.sendall(frame(PING, ACK, 0, payload))
        elif kind in (GOAWAY, RST_STREAM):
            raise SystemExit("etcd ended a call")
        elif stream == self.stream and kind == DATA:
            self.messages += bool(payload)
        if stream != self.stream or kind not in (DATA, HEADERS) or not flags & END_STREAM:
            return False
        if not self.messages:
            raise SystemExit("etcd refused a call")
        return True

    def call(self, message):
        """One call, to its end."""
        self.send(message)
        while not self.take():
            pass
