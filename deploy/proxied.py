"""Services that the scripts of this folder start, nginx with its site in front of them, and clients
of nginx, for trials and measurements.

All use high ports of one machine and a temporary folder, and are ended by `close`. They need nginx
and openssl.
"""

import contextlib
import http.client
import os
import shutil
import signal
import socket
import ssl
import subprocess
import sys
import threading
import time

HERE = os.path.dirname(os.path.abspath(__file__))
sys.path.insert(0, os.path.join(os.path.dirname(HERE), "tools"))

from served import HOST, Failure, free_port

NAME = "tz.example.org"
NOT_MODIFIED = b"HTTP/1.1 304 "
# Edits of the site for measurements from one address, which its limits would slow down.
UNLIMITED = [("limit_req zone=tzdistd_rate burst=2000 delay=1000;", ""), ("limit_conn tzdistd_open 256;", "")]
CONF = """
daemon off;
worker_processes {workers};
pid {at}/pid;
events {{ worker_connections 4096; }}
http {{
    access_log off;
    client_body_temp_path {at}/t1;
    proxy_temp_path {at}/t2;
    fastcgi_temp_path {at}/t3;
    uwsgi_temp_path {at}/t4;
    scgi_temp_path {at}/t5;
    keepalive_requests 100000;
    include {at}/site;
}}
"""


def needed(*tools):
    """Ends the script where one of these is not installed."""
    for tool in tools:
        if shutil.which(tool) is None:
            sys.exit(f"{tool} is not installed")


def same(what, seen, wanted):
    if seen != wanted:
        raise Failure(f"{what}: {seen!r} and not {wanted!r}")
    print(f"  {what}: as it should be", flush=True)


def text_of(name):
    """A file of this folder."""
    with open(os.path.join(HERE, name)) as file:
        return file.read()


def edited(text, edits):
    """A text with each old part replaced by the new part of its pair."""
    for old, new in edits:
        if old not in text:
            raise Failure(f"there is no {old!r}")
        text = text.replace(old, new)
    return text


class Service:
    """A server or a mirror at a free port, started by the script of its unit, with its console in
    a folder."""

    def __init__(self, script, at, program, **values):
        os.makedirs(at)
        self.script, self.at, self.port = script, at, free_port()
        self.address = f"{HOST}:{self.port}"
        self.state = os.path.join(at, "state")
        os.makedirs(self.state)
        names = {"RUNTIME_DIRECTORY": at, "STATE_DIRECTORY": self.state, "ADDRESS": self.address, "WORKERS": "2",
                 "TZDISTD": program, "TZDISTD_SETTINGS": os.devnull}
        self.environment = {**os.environ, **names, **values}
        self.start()

    def start(self):
        with contextlib.suppress(FileNotFoundError):
            os.unlink(os.path.join(self.at, "replies"))
        with open(os.path.join(self.at, "journal"), "ab") as journal:
            self.child = started(self.script, self.environment, stdout=journal, stderr=journal)

    def first_reply(self):
        """The first line at its console, for which a busy machine may need minutes."""
        replies = os.path.join(self.at, "replies")
        for _ in range(1800):
            if os.path.exists(replies) and os.path.getsize(replies):
                with open(replies) as file:
                    return file.read()
            if self.child.poll() is not None:
                raise Failure(f"{self.script} ended with the status {self.child.returncode}: {self.journal()}")
            time.sleep(0.1)
        raise Failure(f"{self.script} is not ready: {self.journal()}")

    def say(self, *line):
        """Status and output of a line at its console."""
        words = [os.path.join(HERE, "tzdistd-console"), *line]
        done = subprocess.run(words, env=self.environment, capture_output=True, text=True, timeout=90)
        return done.returncode, done.stdout + done.stderr

    def journal(self):
        """What the script and the program printed."""
        with open(os.path.join(self.at, "journal")) as file:
            return file.read()

    def close(self):
        if self.child.poll() is None:
            self.child.kill()
            self.child.wait(20)


def started(script, environment, **more):
    return subprocess.Popen([os.path.join(HERE, script)], env=environment, stdin=subprocess.DEVNULL, **more)


def one_server(port):
    """What to edit in the site for a server at a port of this machine."""
    return [(f"server {HOST}:8008;", f"server {HOST}:{port};")]


def two_mirrors(site, ports):
    """The site with two mirrors at ports of this machine instead of one server."""
    begin, end = site.index("# Which group"), site.index("# Answers are cached")
    edits = [(f"server 192.0.2.{number}:8008", f"server {HOST}:{port}") for number, port in enumerate(ports, 1)]
    return site[:begin] + edited(text_of("nginx-mirrors.conf"), edits) + "\n" + site[end:]


class Listening:
    """A program that was started, and listens at a port of this machine."""

    @property
    def address(self):
        return f"{HOST}:{self.port}"

    def close(self):
        if self.child.poll() is None:
            self.child.send_signal(signal.SIGTERM)
            self.child.wait(20)


class Nginx(Listening):
    """nginx with a site in a folder, which listens at a port of this machine."""

    def __init__(self, at, site, port, workers=2):
        self.at, self.port = at, port
        os.makedirs(at, exist_ok=True)
        os.chmod(at, 0o755)
        for name, text in (("site", site), ("conf", CONF.format(at=at, workers=workers))):
            with open(f"{at}/{name}", "w") as file:
                file.write(text)
        words = ["nginx", "-p", at, "-c", f"{at}/conf", "-e", f"{at}/errors"]
        tried = subprocess.run([*words, "-t"], capture_output=True, text=True, timeout=30)
        if tried.returncode != 0:
            raise Failure(f"nginx refuses the site: {tried.stderr}")
        self.child = subprocess.Popen(words, stdin=subprocess.DEVNULL)
        try:
            listens("nginx", port)
        except Failure:
            self.close()
            raise


def listens(what, port):
    """Waits until something listens at a port."""
    for _ in range(100):
        try:
            socket.create_connection((HOST, port), 20).close()
            return
        except OSError:
            time.sleep(0.1)
    raise Failure(f"{what} does not listen")


class Proxy(Nginx):
    """nginx with the site of this folder or one made from it, and with its own certificate."""

    def __init__(self, at, site, workers=2):
        os.makedirs(at, exist_ok=True)
        self.at, port = at, free_port()
        self._certify()
        site = edited(site, [
            ("/var/cache/tzdistd ", f"{at}/cache "),
            ("/var/log/nginx/tzdistd.log ", f"{at}/log "),
            ("/run/tzdistd-metrics/", f"{at}/"),
            ("/usr/share/tzdistd/page;", f"{HERE}/page;"),
            ("listen 443 ", f"listen {HOST}:{port} "),
            ("    listen [::]:443 ssl http2;\n", ""),
            ("/etc/ssl/tzdistd/", f"{at}/"),
        ])
        self.context = ssl.create_default_context(cafile=self.certificate)
        super().__init__(at, site, port, workers)

    def _certify(self):
        subprocess.run(
            ["openssl", "req", "-x509", "-newkey", "ec", "-pkeyopt", "ec_paramgen_curve:prime256v1", "-nodes",
             "-days", "2", "-subj", f"/CN={NAME}", "-addext", f"subjectAltName=DNS:{NAME},IP:{HOST}",
             "-keyout", f"{self.at}/key.pem", "-out", self.certificate],
            check=True, capture_output=True, timeout=60,
        )

    @property
    def certificate(self):
        return f"{self.at}/fullchain.pem"

    @property
    def url(self):
        return f"https://{self.address}"

    def connect(self, source=None):
        """A client's connection, from an address of the loopback if one is given."""
        client = Client(self.port, self.context, source)
        client.connect()
        return client


def tunnel(at, front, name=NAME):
    """nginx with the configuration for TLS to an upstream. That is the proxy `front`, which must
    have that name."""
    port = free_port()
    site = edited(text_of("nginx-upstream.conf"), [
        (f"server {NAME}:443;", f"server {front.address};"),
        ("listen 127.0.0.1:8007;", f"listen {HOST}:{port};"),
        (f"proxy_ssl_name {NAME};", f"proxy_ssl_name {name};"),
        ("/etc/ssl/certs/ca-certificates.crt", front.certificate),
    ])
    return Nginx(at, site, port)


class Stunnel(Listening):
    """stunnel with one part of the configuration for TLS to an upstream."""

    def __init__(self, at, part, edits):
        os.makedirs(at, exist_ok=True)
        parts = text_of("stunnel-upstream.conf").split("\n[")
        text = next(one for one in parts if one.startswith(part + "]")).rpartition("\n\n;")[0] or parts[-1]
        self.port = free_port()
        with open(f"{at}/conf", "w") as file:
            file.write(f"foreground = yes\npid =\noutput = {at}/log\n[" + edited(text, edits(self.port)) + "\n")
        self.child = subprocess.Popen(["stunnel4", f"{at}/conf"], stdin=subprocess.DEVNULL, stderr=subprocess.DEVNULL)
        listens("stunnel", self.port)


class Client(http.client.HTTPSConnection):
    """A connection to the proxy, by its name."""

    def __init__(self, port, context, source=None):
        super().__init__(NAME, port, timeout=20, context=context, source_address=source and (source, 0))

    def connect(self):
        plain = socket.create_connection((HOST, self.port), self.timeout, self.source_address)
        self.sock = self._context.wrap_socket(plain, server_hostname=NAME)

    def __enter__(self):
        return self

    def __exit__(self, *_):
        self.close()


def ask(connection, target, method="GET", **fields):
    """The reply and its body."""
    fields = {name.replace("_", "-"): value for name, value in fields.items()}
    connection.request(method, target, headers=fields)
    reply = connection.getresponse()
    return reply, reply.read()


class Relay:
    """Passes connections on to a server, and keeps the head of each request that passes."""

    def __init__(self, port):
        self.to, self.heads, self.unmodified = port, [], 0
        self.listener = socket.create_server((HOST, 0), backlog=1024)
        self.port = self.listener.getsockname()[1]
        threading.Thread(target=self._accept, daemon=True).start()

    def _accept(self):
        while True:
            near = self.listener.accept()[0]
            try:
                far = socket.create_connection((HOST, self.to))
            except OSError:
                near.close()
                continue
            for words in ((near, far, self._asked), (far, near, self._answered)):
                threading.Thread(target=self._pass, args=words, daemon=True).start()

    def _pass(self, here, there, told):
        held = b""
        try:
            while piece := here.recv(1 << 16):
                held = told(held + piece)
                there.sendall(piece)
        except OSError:
            pass
        for end in (here, there):
            try:
                end.shutdown(socket.SHUT_RDWR)
            except OSError:
                pass

    def _asked(self, held):
        *heads, rest = held.split(b"\r\n\r\n")
        self.heads += [head.decode("latin-1") for head in heads]
        return rest

    def _answered(self, held):
        """Counts the replies which say that a cached answer is still valid."""
        self.unmodified += held.count(NOT_MODIFIED)
        # the beginning of such a reply is kept, and no reply is counted twice
        return held[1 - len(NOT_MODIFIED) :]

    def clear(self):
        self.heads, self.unmodified = [], 0
