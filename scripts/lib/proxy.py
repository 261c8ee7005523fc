"""What the scripts that try contrib/nginx.conf share: the proxy as its recipe starts it, also as an operator may change it,
and a client of it."""

import base64
import os
import pty
import re
import shutil
import socket
import ssl
import subprocess
import sys
import time

from lib.serving import HOST, PATIENCE, free_port, listens, read_to_end, refused
from lib.usbreg import CONTRIB, content, write

PORTS = (8000, 8081, 8080)
# The connections of a small proxy.
FEW = 128
# Those who have a password; the last two names are no slugs.
CURATOR = "curator-1"
NAMES = ("ann", "bob", "mallory", CURATOR, "Zoe", "anna_b")
# What the proxy says of a name that may not send an order, or a list.
NO_SLUG, NO_CURATOR = "a user name is 1 to 32 of a-z, 0-9 and -", "only curators send lists"
DEBIAN, MODULES = "/etc/nginx/nginx.conf", "/usr/share/nginx/modules"


def signed(name, sent, password=None):
    """Returns the same message with a name and a password."""
    pair = base64.b64encode(f"{name}:{password or name}".encode())
    return sent.replace(b"\r\n", b"\r\nauthorization: Basic " + pair + b"\r\n", 1)


# The commands of the recipe.


def commands(path):
    """Returns the commands at the top of a configuration."""
    return [it.replace("/path/to/contrib", CONTRIB) for it in re.findall(r"^#   (.*)$", content(path).decode(), re.MULTILINE)]


def typed(line, at, answers):
    """Runs a command at a terminal, in a folder, and types an answer at each prompt."""
    process, terminal = pty.fork()
    if not process:
        os.chdir(at)
        os.execvp("sh", ["sh", "-c", line])
    for answer in answers:
        while not os.read(terminal, 1000).rstrip().endswith(b":"):
            pass
        os.write(terminal, f"{answer}\n".encode())
    while True:
        try:
            if not os.read(terminal, 1000):
                break
        except OSError:
            break
    if status := os.waitpid(process, 0)[1]:
        sys.exit(f"{line}: status {status}")


def shell(line, at):
    """Runs a command in a folder as it is written."""
    ran = subprocess.run(["sh", "-c", line], cwd=at, capture_output=True, timeout=PATIENCE, check=False)
    if ran.returncode:
        sys.exit(f"{line}: status {ran.returncode}, {ran.stderr!r}")


def let_in(line, at):
    """Runs the command of the recipe that adds a name for each name, which is its password too."""
    for number, name in enumerate(NAMES):
        said = line.replace(" ann", f" {name}").replace(" -c", " -c" if number == 0 else "")
        if shutil.which("htpasswd"):
            typed(said, at, [name, name])
        else:
            with open(f"{at}/{line.split()[-2]}", "a", encoding="utf-8") as users:
                users.write(f"{name}:{{PLAIN}}{name}\n")


# The proxy.


class Recipe:
    """The proxy as the recipe starts it, for a `with`."""

    def __init__(self, room, server):
        make, *lines, self.start, self.stop = commands(f"{CONTRIB}/nginx-trial.conf")
        self.folder, self.port = f"{room}/trial", free_port()
        if make != "mkdir trial && cd trial":
            sys.exit(f"the first command is {make}")
        os.mkdir(self.folder)
        # if root starts nginx its workers are another user
        os.chmod(room, 0o755)
        for line in lines:
            if line.startswith("htpasswd"):
                let_in(line, self.folder)
            else:
                shell(line, self.folder)
        self.conf = f"{self.folder}/usbreg.conf"
        for port, other in zip(PORTS, (self.port, free_port(), server.port)):
            self.change(f"{HOST}:{port}", f"{HOST}:{other}")

    def change(self, text, other):
        """Replaces a text of the configuration, which must be there."""
        there = content(self.conf).decode()
        if text not in there:
            sys.exit(f"contrib/nginx.conf has no {text!r}")
        write(self.conf, there.replace(text, other))

    def __enter__(self):
        shell(self.start, self.folder)
        wait(self.port, True)
        return self

    def __exit__(self, *_):
        shell(self.stop, self.folder)
        wait(self.port, False)

    def process(self):
        """Returns the number of the process that has started the others, which it writes after its port is open."""
        path, until = f"{self.folder}/nginx.pid", time.monotonic() + PATIENCE
        while not os.path.exists(path) or not content(path):
            if time.monotonic() > until:
                sys.exit(f"{path} is not there after {PATIENCE} seconds")
            time.sleep(0.01)
        return int(content(path))

    def log(self):
        return content(f"{self.folder}/orders.log").decode()

    def logged(self):
        """Returns how many bytes its logs have."""
        return sum(os.path.getsize(f"{self.folder}/{it}") for it in os.listdir(self.folder) if ".log" in it)


class ByField(Recipe):
    """The same, but it takes the address of a client from a field of the head: a machine has only one address of IPv6."""

    def __init__(self, room, server):
        super().__init__(room, server)
        listen = f":{self.port} backlog=4096;"
        self.change(listen, f"{listen} set_real_ip_from {HOST}; real_ip_header x-address;")


class Guarded(Recipe):
    """The same with TLS, by the lines that contrib/write-site writes, and with the history for some addresses alone, by those
    of the configuration itself."""

    def __init__(self, room, server):
        super().__init__(room, server)
        shell("openssl req -x509 -newkey rsa:2048 -nodes -subj /CN=localhost -keyout key.pem -out certificate.pem", self.folder)
        listen = f"listen {HOST}:{self.port} backlog=4096"
        self.change(f"{listen};", f"{listen} ssl; ssl_certificate {self.folder}/certificate.pem; ssl_certificate_key {self.folder}/key.pem;")
        for line in ("allow 127.0.0.1;", "deny all;"):
            self.change(f"#{line}", line)


class Small(Guarded):
    """The same with TLS, one process and few connections, so that a script can use them up."""

    def __init__(self, room, server):
        super().__init__(room, server)
        trial = f"{self.folder}/nginx-trial.conf"
        text = content(trial).decode()
        for line, other in (("worker_processes auto;", "worker_processes 1;"), ("worker_connections 8192;", f"worker_connections {FEW};")):
            if line not in text:
                sys.exit(f"contrib/nginx-trial.conf has no {line!r}")
            text = text.replace(line, other)
        write(trial, text)


class Packaged(Recipe):
    """The same in Debian's configuration, whose folders and pid are those of the room. It is in the zone of Japan."""

    def __init__(self, room, server):
        super().__init__(room, server)
        text = content(DEBIAN).decode().replace("/etc/nginx/conf.d/*.conf", self.conf)
        text = text.replace("include /etc/nginx/sites-enabled", "#").replace("/var/log/nginx", self.folder).replace("/run/nginx.pid", f"{self.folder}/debian.pid")
        write(f"{self.folder}/debian.conf", text)
        os.symlink(MODULES, f"{self.folder}/modules")
        self.start, self.stop = (f"TZ=JST-9 {it.replace('nginx-trial.conf', 'debian.conf')}" for it in (self.start, self.stop))


def wait(port, is_up):
    until = time.monotonic() + PATIENCE
    while listens(port) != is_up:
        if time.monotonic() > until:
            sys.exit(f"port {port} is {'not ' * is_up}open after {PATIENCE} seconds")
        time.sleep(0.01)


# What a client gets.


def told(reply):
    return f'{{"done":"{reply}"}}\n'.encode()


def refusal(number):
    """Returns the status and the body of a refusal."""
    head, _, body = refused(number).partition(b"\r\n\r\n")
    return int(head.split()[1]), body


def by_proxy(status, detail=None):
    """Returns the status and the body of a refusal by the proxy itself."""
    told = f'"detail":"{detail}",' if detail else ""
    return status, f'{{{told}"proxy":{status}}}\n'.encode()


def connected(port, address=HOST):
    """Opens a connection from an address of this machine."""
    return socket.create_connection((HOST, port), timeout=PATIENCE, source_address=(address, 0))


def closing(sent):
    """Returns a message that asks for the connection to be closed."""
    return sent.replace(b"\r\n", b"\r\nconnection: close\r\n", 1)


def parts(response):
    """Returns the status, the body, and the lines of the head in lower case."""
    head, _, body = response.partition(b"\r\n\r\n")
    lines = head.decode().lower().splitlines()
    return int(lines[0].split()[1]), body, lines[1:]


class Gate:
    """What a client gets from the proxy: a status, a body and the head. The client asks for the connection to be closed."""

    def __init__(self, port, has_tls=False):
        self.port, self.tls = port, None
        if has_tls:
            self.tls = ssl.create_default_context()
            self.tls.check_hostname, self.tls.verify_mode = False, ssl.CERT_NONE

    def ask(self, sent, address=HOST):
        with connected(self.port, address) as plain, (self.tls.wrap_socket(plain) if self.tls else plain) as connection:
            connection.sendall(closing(sent))
            return parts(read_to_end(connection))

    def gives(self, what, sent, status, body=None, address=HOST, has=()):
        """Checks the status, the body if one is given, and that the head has these lines."""
        got, text, lines = self.ask(sent, address)
        if got != status or body not in (None, text) or set(has) - set(lines):
            sys.exit(f"{what}: status {got}, {lines}, {text!r}, where {status} {has} {body!r} is wanted")
