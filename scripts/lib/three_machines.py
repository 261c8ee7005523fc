"""Machines that share one registry, as network namespaces: each has etcd, `usbreg serve` and nginx, and keeps its files on a
small disk of its own. A wire connects them with the script.

All of it stands in namespaces of the script, so nothing of it is left when the script ends. It needs root."""

import contextlib
import os
import shutil
import subprocess
import sys
import threading
import time

from lib.stopping import kill
from lib.usbreg import CONTRIB, FOUNDING, TOP, content, done, remove, write

NEEDED = ("unshare", "nsenter", "ip", "nft", "mount", "etcd", "etcdctl", "nginx", "openssl", "curl")
ALONE = "USBREG_MACHINES"
NET, COUNT = "10.77.0", 3
# The names of the machines, and the addresses that contrib/etcd has for them.
NAMES, GIVEN = ("one", "two", "three"), ("192.0.2.11", "192.0.2.12", "192.0.2.13")
# The megabytes of a machine's disk: etcd makes two files of 64 MB for its log. A longer run needs more for its record.
DISK = 192
NAME = "numbers"
# The log at etcd, and at a program before etcd that answers too early.
ETCD, EARLY = 2379, 2378
LOG, EARLY_LOG = (f"http://127.0.0.1:{it}/{NAME}" for it in (ETCD, EARLY))
# The seconds after which a process that ended is started again, and those that a start of all may take.
PAUSE, PATIENCE = 0.3, 120
# The seconds in which etcd has to take a machine in the place of another one. It refuses while its members do not hear each other.
REPLACING = 600
# A machine passes a message on to its own server, and one that is safe to send again to another machine while that is down.
NGINX = """
daemon off;
pid {folder}/nginx.pid;
error_log {folder}/nginx.log crit;
events {{ worker_connections 256; }}
http {{
    access_log off;
    client_body_temp_path {folder}/body;
    proxy_temp_path {folder}/proxy;
    fastcgi_temp_path {folder}/fastcgi;
    uwsgi_temp_path {folder}/uwsgi;
    scgi_temp_path {folder}/scgi;
    proxy_connect_timeout 1s;
    proxy_read_timeout 20s;
    upstream registry {{
        server 127.0.0.1:8080 max_fails=0;
{others}
    }}
    server {{
        listen {address}:80;
        location / {{
            proxy_pass http://registry;
            proxy_next_upstream error timeout http_503;
            proxy_next_upstream_tries 2;
        }}
    }}
    server {{
        listen {address}:8081;
        location / {{ proxy_pass http://127.0.0.1:8080; }}
    }}
}}
"""


def in_namespaces():
    """Begins the script again in namespaces of its own, which end with it. Returns false if it may not, or something is missing."""
    missing = [it for it in NEEDED if not shutil.which(it)]
    if os.geteuid() != 0 or missing:
        return False
    if ALONE not in os.environ:
        os.environ[ALONE] = "1"
        words = ["unshare", "--net", "--mount", "--pid", "--fork", "--kill-child", "--mount-proc", sys.executable, *sys.argv]
        os.execvp(words[0], words)
    return True


def call(*words):
    """Runs a command that must succeed and says nothing."""
    subprocess.run(words, check=True, stdout=subprocess.DEVNULL, stderr=subprocess.DEVNULL)


def address_of(index):
    return f"{NET}.{index + 1}"


class Machine:
    """One machine. A thread starts each of its processes again that has ended, as systemd does, unless it is to be down."""

    def __init__(self, usbreg, room, index, log, disk):
        self.usbreg, self.index, self.log = usbreg, index, log
        self.names = ("etcd", *(["early"] if log == EARLY_LOG else []), "usbreg", "nginx")
        self.address, self.folder = address_of(index), f"{room}/m{index}"
        self.store = f"{self.folder}/numbers.db"
        os.mkdir(self.folder)
        call("mount", "-t", "tmpfs", "-o", f"size={disk}m,mode=755", "tmpfs", self.folder)
        self.state, self.processes, self.down = "new", {}, {"usbreg"}
        self.guard, self.ends = threading.RLock(), threading.Event()
        self.connect()
        self.write_files(room)
        self.thread = threading.Thread(target=self.keep, daemon=True)

    # ---- the machine itself

    def connect(self):
        """Makes the network of the machine, which lasts as long as a process in it, and its end of the wire."""
        self.holder = subprocess.Popen(["unshare", "--net", "sleep", "infinity"])
        own, its = "/proc/self/ns/net", f"/proc/{self.holder.pid}/ns/net"
        while os.readlink(own) == os.readlink(its):
            time.sleep(0.01)
        call("ip", "link", "add", f"port{self.index}", "type", "veth", "peer", "name", "eth0", "netns", str(self.holder.pid))
        call("ip", "link", "set", f"port{self.index}", "master", "hub", "up")
        call(*self.inside("ip", "addr", "add", f"{self.address}/24", "dev", "eth0"))
        for it in ("lo", "eth0"):
            call(*self.inside("ip", "link", "set", it, "up"))

    def inside(self, *words):
        return ["nsenter", f"--net=/proc/{self.holder.pid}/ns/net", *words]

    def write_files(self, room):
        """Writes what nginx and etcd read: etcd's peers know each other by certificates."""
        others = "\n".join(f"        server {address_of(it)}:8081 backup;" for it in range(COUNT) if it != self.index)
        write(f"{self.folder}/nginx.conf", NGINX.format(folder=self.folder, address=self.address, others=others))
        key, asked, signed = (f"{self.folder}/peer.{it}" for it in ("key", "csr", "crt"))
        call("openssl", "req", "-newkey", "ec", "-pkeyopt", "ec_paramgen_curve:prime256v1", "-nodes", "-keyout", key, "-out", asked, "-subj", f"/CN=m{self.index}")
        names = write(f"{self.folder}/names", f"subjectAltName=IP:{self.address}\n")
        call("openssl", "x509", "-req", "-in", asked, "-CA", f"{room}/ca.crt", "-CAkey", f"{room}/ca.key", "-CAcreateserial", "-days", "2", "-extfile", names, "-out", signed)
        shutil.copyfile(f"{room}/ca.crt", f"{self.folder}/ca.crt")

    def words(self, name):
        """Returns the command of a process."""
        if name == "nginx":
            return ["nginx", "-c", f"{self.folder}/nginx.conf", "-e", f"{self.folder}/nginx.log"]
        if name == "usbreg":
            return [self.usbreg, "serve", self.store, "--port", "8080", *(["--log", self.log] if self.log else [])]
        if name == "early":
            return [sys.executable, f"{TOP}/scripts/lib/early_log.py", str(EARLY), str(ETCD)]
        return ["etcd"]

    def settings(self):
        """Returns the settings of etcd, those of contrib/etcd with this machine's name, address and files."""
        lines = (line.partition("=") for line in content(f"{CONTRIB}/etcd").decode().splitlines() if line and line[0] != "#")
        named = {name: value for name, _, value in lines}
        for index, (its, given) in enumerate(zip(GIVEN, NAMES)):
            named["ETCD_INITIAL_CLUSTER"] = named["ETCD_INITIAL_CLUSTER"].replace(its, address_of(index))
            if index == self.index:
                named["ETCD_NAME"] = given
        for name in ("ETCD_LISTEN_PEER_URLS", "ETCD_INITIAL_ADVERTISE_PEER_URLS"):
            named[name] = named[name].replace(GIVEN[0], self.address)
        named = {name: value.replace("/etc/etcd/", f"{self.folder}/").replace("/var/lib/etcd/", f"{self.folder}/") for name, value in named.items()}
        return {**named, "ETCD_INITIAL_CLUSTER_STATE": self.state}

    # ---- its processes

    def start(self, name):
        if name == "usbreg" and not os.path.exists(self.store):
            words = ["replay", self.store, "--log", self.log] if self.log else ["found", self.store, FOUNDING]
            # (a long log takes a new store minutes)
            done(self.inside(self.usbreg, *words), seconds=3600)
        with open(f"{self.folder}/{name}.out", "wb") as out:
            env = {**os.environ, **(self.settings() if name == "etcd" else {})}
            self.processes[name] = subprocess.Popen(self.inside(*self.words(name)), env=env, stdin=subprocess.DEVNULL, stdout=out, stderr=out)

    def keep(self):
        """Starts what has ended, until the machine ends."""
        while not self.ends.wait(PAUSE):
            with self.guard:
                for name in self.names:
                    process = self.processes.get(name)
                    # (a start may fail where the disk is full: it is tried again)
                    with contextlib.suppress(OSError, SystemExit):
                        if name not in self.down and (process is None or process.poll() is not None):
                            self.start(name)

    def share(self):
        """Puts the record of a new store into the log, once that takes it."""
        done([self.usbreg, "found", self.store, FOUNDING])
        words, until = self.inside(self.usbreg, "share", self.store, "--log", LOG), time.monotonic() + PATIENCE
        while subprocess.run(words, capture_output=True, check=False, timeout=PATIENCE).returncode != 0:
            if time.monotonic() > until:
                sys.exit(f"FAILED: no record can be shared: {self.said()}")
            time.sleep(PAUSE)

    def kill(self, *names):
        """Kills processes, which are started again."""
        with self.guard:
            kill(*[self.processes[it] for it in names if it in self.processes])

    def signal(self, name, what):
        self.processes[name].send_signal(what)

    def end(self):
        """Kills all of the machine, and starts nothing again."""
        self.ends.set()
        with self.guard:
            self.down = set(self.names)
            kill(*self.processes.values())

    # ---- its faults

    def wire(self, state):
        """Cuts the machine off, or connects it again: `up` or `down`."""
        call("ip", "link", "set", f"port{self.index}", state)

    def deafen(self, hook):
        """Drops what comes in (`input`), or what goes out (`output`), until `hear`."""
        side = {"input": "iifname", "output": "oifname"}[hook]
        rules = f"table inet cut {{\nchain one {{\ntype filter hook {hook} priority 0; policy drop;\n{side} lo accept\n}}\n}}\n"
        subprocess.run(self.inside("nft", "-f", "-"), input=rules.encode(), check=True)

    def hear(self):
        call(*self.inside("nft", "flush", "ruleset"))

    def fill(self):
        """Fills the disk."""
        with contextlib.suppress(OSError), open(f"{self.folder}/filler", "wb", buffering=0) as file:
            while file.write(bytes(1 << 20)):
                pass

    def empty(self):
        with contextlib.suppress(FileNotFoundError):
            os.remove(f"{self.folder}/filler")

    def forget(self):
        """Kills the server, and deletes its store."""
        with self.guard:
            self.kill("usbreg")
            remove(self.store)

    # ---- what it says

    def curl(self, target):
        """Returns what the machine's own server answers with status 200, or None."""
        ran = subprocess.run(self.inside("curl", "-sf", "-m", "20", f"http://127.0.0.1:8080{target}"), capture_output=True, check=False)
        return ran.stdout.decode() if ran.returncode == 0 else None

    def count(self):
        """Returns how many lines the log has, or 0 if the member of this machine does not say it."""
        return len(self.etcdctl("get", f"{NAME}/", "--prefix", "--keys-only", "--command-timeout=50s").stdout.split())

    def lines(self):
        """Returns the lines of the log."""
        ran = self.etcdctl("get", f"{NAME}/", "--prefix", "--print-value-only", "--command-timeout=50s")
        if ran.returncode != 0:
            sys.exit(f"FAILED: the lines of the log: {ran.stderr!r}")
        return ran.stdout.decode().splitlines()

    def said(self):
        """Returns what the server and etcd wrote last."""
        texts = []
        for name in ("usbreg", "etcd"):
            with contextlib.suppress(FileNotFoundError), open(f"{self.folder}/{name}.out", "rb") as file:
                texts.append(file.read()[-400:].decode(errors="replace"))
        return texts

    def etcdctl(self, *words):
        return subprocess.run(self.inside("etcdctl", *words), capture_output=True, check=False, env={**os.environ, "ETCDCTL_API": "3"}, timeout=60)

    def replace(self, other):
        """Throws the disk away, and puts an empty machine in its place, by way of another one."""
        with self.guard:
            self.down = {"etcd", "usbreg"}
            kill(*[self.processes[it] for it in self.down if it in self.processes])
        remove(self.store)
        shutil.rmtree(f"{self.folder}/registry", ignore_errors=True)
        until = time.monotonic() + REPLACING
        while (refused := self.refused_by(other)) is not None:
            if time.monotonic() > until:
                sys.exit(f"FAILED: {self.address} cannot be replaced: {refused}, {other.said()}")
            time.sleep(0.5)
        self.state = "existing"
        with self.guard:
            self.down = set()

    def refused_by(self, other):
        """Has another machine put a new member into the place of this one in etcd. Returns what etcd said against it, or None."""
        url = f"https://{self.address}:2380"
        members = other.etcdctl("member", "list")
        if members.returncode != 0:
            return members.stderr
        ids = [line.split(b",")[0].decode() for line in members.stdout.splitlines() if url.encode() in line]
        for step in (*(("remove", it) for it in ids), ("add", NAMES[self.index], f"--peer-urls={url}")):
            ran = other.etcdctl("member", *step)
            if ran.returncode != 0:
                return ran.stderr
        return None


class Machines:
    """Three of them, for a `with`, with disks of so many megabytes. They share the log at an address of each machine, or none."""

    def __init__(self, usbreg, room, log=LOG, disk=DISK):
        call("ip", "link", "set", "lo", "up")
        call("ip", "link", "add", "hub", "type", "bridge")
        call("ip", "addr", "add", f"{NET}.100/24", "dev", "hub")
        call("ip", "link", "set", "hub", "up")
        call("openssl", "req", "-x509", "-newkey", "ec", "-pkeyopt", "ec_paramgen_curve:prime256v1", "-nodes", "-keyout", f"{room}/ca.key", "-out", f"{room}/ca.crt", "-subj", "/CN=peers", "-days", "2")
        self.all = [Machine(usbreg, room, index, log, disk) for index in range(COUNT)]
        for it in self.all:
            it.thread.start()
        if log:
            self.all[0].share()
        for it in self.all:
            it.down = set()

    def __enter__(self):
        return self.all

    def __exit__(self, *_):
        for it in self.all:
            it.end()
        for it in self.all:
            call("ip", "link", "del", f"port{it.index}")
            kill(it.holder)
            call("umount", "--lazy", it.folder)
        call("ip", "link", "del", "hub")
