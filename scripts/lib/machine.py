"""A machine on which the scripts run commands of docs/backup.md and docs/faults.md as they are written: other folders and
programs stand in place of those of a machine, and what `make install-service` installs is there. A script for `systemctl` starts and stops `usbreg serve` and runs the commands of a unit, one for
`runuser` runs a command as the same user, and one for `apt-get` installs nothing."""

import glob
import os
import shutil
import subprocess
import sys
import threading
import time

from lib.serving import PATIENCE, command, exchange, free_port, listens
from lib.usbreg import CONTRIB, TOP, content, copy, tables, write

SYSTEMCTL = """#!/bin/sh
told() { sed -n "s/^$2=-\\{0,1\\}//p" "$LIB/../units/$1" | sed -f "$LIB/../places"; }
if [ -e "$LIB/../settings" ]; then . "$LIB/../settings"; export REGISTRY; fi
case "$*" in
"start usbreg" | "enable --now usbreg") "$USBREG" serve "$LIB/numbers.db" --port "$PORT" 2> "$LIB/../errors" & echo $! > "$LIB/../pid" ;;
"stop usbreg") kill "$(cat "$LIB/../pid")"; while kill -0 "$(cat "$LIB/../pid")" 2> /dev/null; do sleep 0.01; done ;;
"show -p MainPID --value usbreg") cat "$LIB/../pid" ;;
"start "*.service) sh -ec "$(told "$2" ExecStart)" || exit; sh -c "$(told "$2" ExecStartPost)" > "$LIB/../after" 2>&1 || true ;;
esac
"""
RUNUSER = """#!/bin/sh
shift 3
exec "$@"
"""
NOTHING = "#!/bin/sh\n"


class Machine:
    """Folders, programs and a port in place of those of a machine. `others` are more texts with what stands for them."""

    def __init__(self, usbreg, room, others=None):
        self.room, self.lib, self.port = room, f"{room}/lib", free_port()
        self.store = f"{self.lib}/numbers.db"
        for name in ("bin", "lib", "units"):
            os.makedirs(f"{room}/{name}")
        folders = {"/var/lib/usbreg": self.lib, "/var/backups/usbreg": f"{room}/backups", "/usr/local/lib/usbreg": CONTRIB, "/etc/usbreg": room}
        self.places = folders | {":8080": f":{self.port}"} | (others or {})
        write(f"{room}/places", "".join(f"s|{text}|{other}|g\n" for text, other in self.places.items()))
        os.symlink(usbreg, f"{room}/bin/usbreg")
        for unit in glob.glob(f"{CONTRIB}/*.service"):
            shutil.copy(unit, f"{room}/units")
        for name, script in (("systemctl", SYSTEMCTL), ("runuser", RUNUSER), ("apt-get", NOTHING)):
            os.chmod(write(f"{room}/bin/{name}", script), 0o755)
        self.env = {**os.environ, "PATH": f"{room}/bin:{os.environ['PATH']}", "USBREG": usbreg, "LIB": self.lib, "PORT": str(self.port)}

    def runs(self, commands, at=TOP):
        """Returns the exit status and the output of commands, the first of which that fails ends them."""
        for text, other in (self.places | {"--retry-delay 1": "--retry-delay 0"}).items():
            commands = commands.replace(text, other)
        with open(f"{self.room}/said", "w+b") as said:
            status = subprocess.run(["sh", "-ec", commands], cwd=at, env=self.env, stdout=said, stderr=said, check=False, timeout=600).returncode
        return status, content(f"{self.room}/said")

    def must_run(self, commands, at=TOP):
        ended = self.runs(commands, at)
        if ended != (0, b""):
            sys.exit(f"{commands}\nended with {ended}")

    def send(self, requests):
        """Sends orders, once the port is open."""
        while not listens(self.port):
            pass
        for it in requests:
            if not (got := exchange(self.port, command(it))).startswith(b"HTTP/1.1 200 "):
                sys.exit(f"{it}: {got!r}")

    def rows(self, store=None):
        return tables(copy(store or self.store, f"{self.room}/looked.db"))


class Orders:
    """Orders that come one after another, so many seconds apart, for a `with`. One whose response does not come is sent
    again."""

    def __init__(self, machine, requests, apart=0):
        self.machine, self.requests, self.apart, self.done, self.ended = machine, requests, apart, 0, threading.Event()
        self.thread = threading.Thread(target=self.run)

    def run(self):
        for it in self.requests:
            while not self.acknowledged(it):
                pass
            self.done += 1
            if self.ended.wait(self.apart):
                return

    def acknowledged(self, request):
        try:
            return exchange(self.machine.port, command(request)).startswith(b"HTTP/1.1 200 ")
        except OSError:
            return False

    def go_on(self, count):
        """Waits until so many more are done."""
        until, wanted = time.monotonic() + PATIENCE, self.done + count
        while self.done < wanted:
            if time.monotonic() > until:
                sys.exit("no orders come")
            time.sleep(0.001)

    def __enter__(self):
        self.thread.start()
        return self

    def __exit__(self, *_):
        self.ended.set()
        self.thread.join()
