#!/usr/bin/env python3
"""Makes the Debian package, installs it into a folder of its own (`dpkg --root`), founds and serves a registry there,
upgrades the package over the live store, removes it, installs it again and purges it.

The commands of docs/operating.md for the registry run as they are written, except for the folders, `systemctl`, `journalctl`
and `runuser`, for which other programs stand: there is no systemd in the folder. The service starts by the command line in its
unit. The package has the files that its units and its own pages name, and each link of its pages leads to a file of it. All but
the documents are there too if dpkg leaves /usr/share/doc out. What an installation from a checkout left is named. Everything
belongs to root and can be read by all; the store belongs to the user of the service, who alone can read it, and is left as it is
by all that dpkg does. If `lintian` is installed it finds no error in the package. Two packages of one program are the same.

Usage: scripts/try_the_package.py [PROGRAM], by default the one that `make` builds. If dpkg-deb or another program that this
needs is not installed, or it does not run as root, it says so and skips all. The exit status is 0 if all of this holds."""

import glob
import hashlib
import json
import os
import re
import shutil
import stat
import sys

from lib.packaged import made
from lib.pages import OPERATING, block, links
from lib.serving import Serving, done as reply, command, exchange, free_port, get
from lib.usbreg import PAGE_SIZE, SUM_SIZE, TOP, content, done, folder, form, found_without_sums, program, rounds, run, same, write

NEEDED = ("dpkg", "dpkg-deb", "readelf", "git", "setpriv", "systemd-sysusers", "systemd-tmpfiles")
ON_PATH = {"PATH": f"{os.environ['PATH']}:/usr/sbin:/sbin"}
DOCUMENTS, SHARED = "usr/share/doc/usbreg", "usr/share/usbreg"
# What an installation from a checkout left, and comes before the package.
LEFT = ("usr/local/bin/usbreg", "etc/systemd/system/usbreg.service", "etc/systemd/system/usbreg-list.timer")
STORE, FOUNDING, UNIT = "var/lib/usbreg/numbers.db", "etc/usbreg/founding.toml", "lib/systemd/system/usbreg.service"


def compare_files(package, usbreg):
    """Compares what is in a package with the repository."""
    listed = re.findall(r"^(\S+) (\S+) +\d+ \S+ \S+ \./(\S*)$", done(["dpkg-deb", "--contents", package]).decode(), re.MULTILINE)
    there = {name for _, _, name in listed if not name.endswith("/")}
    for mode, owner, name in listed:
        if owner != "root/root" or mode not in ("drwxr-xr-x", "-rwxr-xr-x", "-rw-r--r--"):
            sys.exit(f"{package}: {mode} {owner} {name}")
    wanted = {"usr/bin/usbreg", "usr/share/man/man1/usbreg.1.gz", UNIT, "usr/lib/sysusers.d/usbreg.conf", "usr/lib/tmpfiles.d/usbreg.conf"}
    wanted |= {f"lib/systemd/system/{os.path.basename(it)}" for ending in ("service", "timer") for it in glob.glob(f"{TOP}/contrib/*.{ending}")}
    wanted |= {f"usr/share/usbreg/users/{it}" for it in os.listdir(f"{TOP}/scripts/users") if it != "read_debian_list.sh" and not it.startswith("__")}
    folders = {"docs": f"{DOCUMENTS}/docs", "examples": f"{SHARED}/examples", "contrib": f"{SHARED}/contrib"}
    for top, target in folders.items():
        if os.path.isdir(f"{TOP}/{top}"):
            wanted |= {f"{target}/{it}" for it in os.listdir(f"{TOP}/{top}")}
    versions = {os.path.basename(os.path.dirname(it)) for it in there if it.endswith("/page.js")}
    wanted |= {f"{SHARED}/web/{it}" if it in ("index.html", "me.json") else f"{SHARED}/web/{version}/{it}" for it in os.listdir(f"{TOP}/web") for version in versions}
    same("what the package lacks", wanted - there, set())
    same("what is in /etc", [it for it in there if it.startswith("etc/")], ["etc/logrotate.d/usbreg"])
    same("what is not a document and lies among them", [it for it in there if it.startswith("usr/share/doc/") and not re.search(r"/(docs/.*|README.md|CHANGELOG.md|changelog.gz|copyright)$", it)], [])
    if shutil.which("lintian"):
        status, output, errors = run(["lintian", "--allow-root", "--fail-on", "error", package])
        same("lintian", (status, [it for it in (output + errors).decode().splitlines() if it.startswith("E:")]), (0, []))
    return hashlib.sha256(content(usbreg)).hexdigest()


class Root:
    """A folder into which packages are installed, and what the host's programs do in it."""

    def __init__(self, room):
        self.room, self.top, self.port = room, f"{room}/root", free_port()
        os.makedirs(room, exist_ok=True)
        for name in ("updates", "info", "triggers"):
            os.makedirs(f"{self.top}/var/lib/dpkg/{name}")
        write(f"{self.top}/var/lib/dpkg/status", "")
        write(f"{self.top}/var/lib/dpkg/available", "")

    def path(self, name):
        return f"{self.top}/{name}"

    def dpkg(self, *words):
        """Runs dpkg in the folder. Its scripts run outside of it, since it has no shell, and are told its name."""
        forced = [f"--force-{it}" for it in ("script-chrootless", "depends")]
        status, output, errors = run(["dpkg", f"--root={self.top}", *forced, *words], env=ON_PATH)
        if status:
            sys.exit(f"dpkg {' '.join(words)} ended with {status}: {output.decode()}{errors.decode()}")
        return output.decode()

    def owner(self):
        """Returns the user and the group of the service, by the files that have the users of the folder."""
        users = [line.split(":") for line in content(self.path("etc/passwd")).decode().splitlines()]
        ((user, group),) = [(int(it[2]), int(it[3])) for it in users if it[0] == "usbreg"]
        return user, group

    def as_service(self, *words):
        user, group = self.owner()
        return ["setpriv", f"--reuid={user}", f"--regid={group}", "--clear-groups", "--no-new-privs", *words]

    def found(self):
        """Runs the commands of the page that write the founding file and found the registry."""
        commands = block("The registry")
        for name in ("/etc/usbreg", "/var/lib/usbreg", "/usr/share/usbreg"):
            commands = commands.replace(name, self.path(name[1:]))
        commands = commands.replace("runuser -u usbreg -- usbreg", " ".join(self.as_service(self.path("usr/bin/usbreg"))))
        others = "umask 022\nsystemctl() { :; }\njournalctl() { echo serves; }\n"
        same("the founding", run(["sh", "-ec", f"{others}{commands}"]), (0, b"serves\n", b""))

    def service(self):
        """Starts the service by the command line in its unit."""
        unit = content(self.path(UNIT)).decode()
        for line in ("User=usbreg", "StateDirectory=usbreg", "ProtectSystem=strict", "NoNewPrivileges=yes"):
            same(f"{line} in the unit", unit.splitlines().count(line), 1)
        same("a dynamic user in the unit", "DynamicUser" in unit, False)
        words = re.search(r"^ExecStart=(.*)$", unit, re.MULTILINE)[1].split()
        words = [self.top + it if it.startswith("/") else it for it in words]
        words[words.index("--port") + 1] = str(self.port)
        return Serving(self.as_service(*words), self.port)

    def kept(self):
        """Returns the bytes of the store and of the founding file, and whose the store is."""
        owner = os.stat(self.path("var/lib/usbreg"))
        names = sorted(os.listdir(self.path("var/lib/usbreg")))
        files = [(it, content(self.path(f"var/lib/usbreg/{it}"))) for it in names]
        return owner.st_uid, owner.st_gid, stat.S_IMODE(owner.st_mode), files, content(self.path(FOUNDING))


def send(root, requests, wanted):
    for request, text in zip(requests, wanted):
        same(f"the reply to {request}", exchange(root.port, command(request)), reply(text))


def install_and_serve(root, package, summed):
    """Installs a package where there is none, founds a registry and serves it."""
    root.dpkg("--install", package)
    same("the folder of the store", (os.stat(root.path("var/lib/usbreg")).st_uid, os.stat(root.path("var/lib/usbreg")).st_mode & 0o777), (root.owner()[0], 0o700))
    same("the sum of the program", content(root.path(f"{SHARED}/usbreg.sha256")).decode(), f"{summed}  /usr/bin/usbreg\n")
    same("the program", hashlib.sha256(content(root.path("usr/bin/usbreg"))).hexdigest(), summed)
    compare_pages(root)
    root.found()
    same("whose the store is", (os.stat(root.path(STORE)).st_uid, os.stat(root.path(STORE)).st_gid), root.owner())
    status, _, errors = run([sys.executable, root.path("usr/share/usbreg/users/write_pages.py")])
    same("the script for pages says how it is called", (status, b"Usage: write_pages.py" in errors), (1, True))
    renew(root)


def compare_pages(root):
    """Checks that the files which the pages and the units of the package name are there, and where its links lead."""
    named = {it for page in OPERATING for it in re.findall(r"(?<![\w/])/?((?:contrib|examples|usr/lib/usbreg|usr/share/usbreg)/[\w.-]+)", content(root.path(f"{DOCUMENTS}/{page}")).decode())}
    named |= {it for unit in glob.glob(root.path("lib/systemd/system/usbreg*.service")) for it in re.findall(r"^Exec\w+=[-+]*/(\S+)", content(unit).decode(), re.MULTILINE)}
    outside = {it for it in named if not os.path.exists(root.path(it)) and not os.path.exists(root.path(f"{SHARED}/{it}"))}
    same("files that are named, and are not there", (len(named) > 20, outside - {"bin/sh"}), (True, set()))
    files = re.findall(r'"/(web/[^"]+)"', content(root.path(f"{SHARED}/web/index.html")).decode())
    same("files of the page that are not there", (len(files) > 20, [it for it in files if not os.path.exists(root.path(f"{SHARED}/{it}"))]), (True, []))
    pages = glob.glob(root.path(f"{DOCUMENTS}/**/*.md"), recursive=True)
    broken = [(page, it) for page in pages for it in links(content(page).decode()) if not os.path.exists(f"{os.path.dirname(page)}/{it}")]
    same("links that lead nowhere", (len(pages) > 10, broken), (True, []))


def without_documents(package, room):
    """Installs a package where dpkg leaves the documents out, over what an installation from a checkout left."""
    root = Root(f"{room}/bare")
    for name in LEFT:
        os.makedirs(os.path.dirname(root.path(name)), exist_ok=True)
        write(root.path(name), "")
    said = root.dpkg("--path-exclude=/usr/share/doc/*", "--install", package)
    same("what comes before the package is named", [it for it in LEFT if f"usbreg: /{it} comes before" in said], list(LEFT))
    same("the documents", os.path.exists(root.path(DOCUMENTS)), False)
    names = ("contrib/nginx.conf", "contrib/usbreg.logrotate", "examples/first.jsonl", "nginx.conf", "settings", "usbreg.sha256", "web/index.html")
    same("what else the package lacks then", [it for it in names if not os.path.exists(root.path(f"{SHARED}/{it}"))], [])


def renew(root):
    """Renews a store without checksums by the script in the package."""
    old, new = found_without_sums(root.path("usr/bin/usbreg"), f"{root.room}/old.db"), f"{root.room}/renewed.db"
    same("a store is renewed", run([root.path("usr/share/usbreg/users/renew_a_store.py"), old, new, root.path("usr/bin/usbreg")]), (0, b"", b""))
    same("the pages of the renewed store", form(new), (PAGE_SIZE, SUM_SIZE))


def upgrade(root, package, orders):
    """Upgrades the package while the service runs, which goes on; then it is restarted, as the package does with systemd."""
    with root.service().up() as serving:
        send(root, orders[:1], ["enrolled o1"])
        before = root.kept()
        root.dpkg("--install", package)
        same("the store after the upgrade", root.kept(), before)
        send(root, orders[1:2], ["petition 1"])
        serving.kill()
    with root.service().up():
        send(root, orders[:2], ["enrolled o1", "petition 1"])
        same("the list", exchange(root.port, get("/list")).split(b"\n")[-2], b"1209  Shared products")


def main():
    usbreg = program(*sys.argv[1:2])
    missing = [it for it in NEEDED if not shutil.which(it, path=ON_PATH["PATH"])]
    if missing or os.getuid():
        print(f"SKIPPED: no package was installed: {' '.join(missing) + ' is missing' if missing else 'only root can'}")
        return
    orders = [it | {"caller": "ann"} for it in rounds(1, 1)]
    with folder() as room:
        os.chmod(room, 0o755)
        first, second = (made(usbreg, room, it) for it in ("0.1.0+first", "0.1.0+second"))
        os.mkdir(f"{room}/again")
        same("two packages of one program", content(made(usbreg, f"{room}/again", "0.1.0+first")), content(first))
        summed = compare_files(first, usbreg)
        without_documents(first, room)
        root = Root(room)
        install_and_serve(root, first, summed)
        upgrade(root, second, orders)
        before = root.kept()
        root.dpkg("--remove", "usbreg")
        same("what is there after the removal", [it for it in ("usr/bin/usbreg", "usr/share/usbreg") if os.path.exists(root.path(it))], [])
        same("the store after the removal", root.kept(), before)
        root.dpkg("--install", second)
        same("the store after another installation", root.kept(), before)
        root.dpkg("--purge", "usbreg")
        same("the store after the purge", root.kept(), before)
        same("the user after the purge", root.owner(), before[:2])
        same("what dpkg knows of it", json.dumps(content(root.path("var/lib/dpkg/status")).decode().strip()), '""')
    print("the package is made, installed, upgraded over a live store, removed and purged, and the store stays")


if __name__ == "__main__":
    main()
