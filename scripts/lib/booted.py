"""Machines with systemd as their first process, in namespaces of their own over the files of this one: what they write stays
in a folder, their ports are their own, and they are connected by a wire. A script stands
for `apt-get`: it installs a package by its path, and of another one checks that it is there."""

import os
import shutil
import subprocess
import sys
import time

from lib.stopping import kill
from lib.usbreg import content, write

SYSTEMD = "/lib/systemd/systemd"
NEEDED = ("unshare", "nsenter", "ip", "dpkg", "nginx", "htpasswd", "curl", "git", "openssl", "logrotate", "runuser", "ssh-keygen", "systemd-hwdb")
# The seconds that a machine may take to boot, and a command on it.
PATIENCE = 300
UNSHARE = ("unshare", "--mount", "--pid", "--net", "--uts", "--ipc", "--cgroup", "--fork", "--kill-child")
OVERLAY = """
mount -t tmpfs tmpfs /mnt
mkdir /mnt/upper /mnt/work /mnt/root /mnt/groups
mount -t overlay overlay -o lowerdir=/,upperdir=/mnt/upper,workdir=/mnt/work /mnt/root
mount -t cgroup2 cgroup2 /mnt/groups
"""
# A machine has a control group of its own, which is the highest one that it sees: the services of two machines have the same names.
BEGIN = r"""
set -e
mount --make-rprivate /
mount -t cgroup2 cgroup2 "$1/groups"
mkdir -p "$1/groups/$3"
echo 0 > "$1/groups/$3/cgroup.procs"
umount "$1/groups"
exec unshare --cgroup bash -c "$4" boot "$1" "$2"
"""
END = r"""
mount -t cgroup2 cgroup2 /mnt
tries=0
while [ -e "/mnt/$1" ] && [ "$tries" -lt 20 ]; do
    find "/mnt/$1" -depth -type d -exec rmdir {} + 2> /dev/null || sleep 0.1
    tries=$((tries + 1))
done
"""
BOOT = r"""
set -e
top=$1 name=$2 root=$1/root
mount -t overlay overlay -o lowerdir=/,upperdir=$top/upper,workdir=$top/work $root
mount -t proc proc $root/proc
mount -o bind,ro $root/proc/sys $root/proc/sys
mount -t sysfs -o ro sysfs $root/sys
mount -t cgroup2 cgroup2 $root/sys/fs/cgroup
mount -t tmpfs -o mode=755 tmpfs $root/run
mount -t tmpfs tmpfs $root/tmp
mount -t tmpfs -o mode=755 tmpfs $root/dev
for it in null zero full random urandom tty; do touch $root/dev/$it; mount --bind /dev/$it $root/dev/$it; done
mkdir $root/dev/pts $root/dev/shm
mount -t devpts -o newinstance,ptmxmode=0666,mode=620 devpts $root/dev/pts
mount -t tmpfs tmpfs $root/dev/shm
ln -s pts/ptmx $root/dev/ptmx
ln -s /proc/self/fd $root/dev/fd
for it in 0:stdin 1:stdout 2:stderr; do ln -s /proc/self/fd/${it%:*} $root/dev/${it#*:}; done
ip link set lo up
hostname $name
mkdir -p $root/before
cd $root
pivot_root . before
umount -l /before
exec env -i container=other PATH=/usr/local/sbin:/usr/local/bin:/usr/sbin:/usr/bin:/sbin:/bin LANG=C.UTF-8 \
    /lib/systemd/systemd --system --unit=basic.target
"""
APT_GET = """\
#!/bin/sh
[ "$1" = install ] || exit 0
shift
for it in "$@"; do
    case $it in
    ./*) dpkg -i "$it" ;;
    *) dpkg-query -W "$it" > /dev/null 2>&1 || [ "$it" = prometheus-node-exporter ] ;;
    esac
done
"""


def missing():
    """Returns why there can be no such machine, or nothing."""
    if os.getuid():
        return "only root can boot a machine"
    if not os.path.exists(SYSTEMD):
        return "systemd is not installed"
    path = f"{os.environ['PATH']}:/usr/sbin:/sbin"
    if lacking := [it for it in NEEDED if not shutil.which(it, path=path)]:
        return f"{lacking[0]} is not installed"
    tried = subprocess.run([*UNSHARE, "sh", "-ec", OVERLAY], capture_output=True, check=False)
    return f"there are no namespaces and overlays here: {tried.stderr.decode()}" if tried.returncode else None


class Booted:
    """A machine, for a `with`. Its address on the wire is 10.77.0.`number`."""

    def __init__(self, room, name, number):
        self.top, self.name, self.address = f"{room}/{name}", name, f"10.77.0.{number}"
        self.group = f"usbreg-{os.getpid()}-{os.path.basename(room)}-{name}"
        for it in ("upper/usr/local/sbin", "upper/etc", "work", "root", "groups"):
            os.makedirs(f"{self.top}/{it}")
        os.chmod(write(f"{self.top}/upper/usr/local/sbin/apt-get", APT_GET), 0o755)
        write(f"{self.top}/upper/etc/fstab", "")

    def __enter__(self):
        words = [*UNSHARE, "bash", "-c", BEGIN, "begin", self.top, self.name, self.group, BOOT]
        self.log = open(f"{self.top}/log", "wb")
        self.outer = subprocess.Popen(words, stdin=subprocess.DEVNULL, stdout=self.log, stderr=self.log, start_new_session=True)
        until = time.monotonic() + PATIENCE
        while not self.is_up():
            if self.outer.poll() is not None or time.monotonic() > until:
                sys.exit(f"the machine {self.name} does not boot: {content(f'{self.top}/log')!r:.1000}")
            time.sleep(0.1)
        return self

    def __exit__(self, *_):
        """Ends it like a power cut: all its processes are killed."""
        kill(self.outer)
        self.log.close()
        subprocess.run(["unshare", "--mount", "sh", "-c", END, "end", self.group], check=False)

    def is_up(self):
        children = content(f"/proc/{self.outer.pid}/task/{self.outer.pid}/children").split()
        if not children or not content(f"/proc/{children[0].decode()}/cmdline").startswith(SYSTEMD.encode()):
            return False
        self.pid = children[0].decode()
        return self.runs("systemctl is-system-running")[1].strip() in ("running", "degraded")

    def runs(self, commands, at="/root"):
        """Returns the exit status and the output of commands, the first of which that fails ends them."""
        enter = ["nsenter", "-t", self.pid, "-m", "-u", "-i", "-n", "-p", "-C", "-w"]
        env = {"PATH": "/usr/local/sbin:/usr/local/bin:/usr/sbin:/usr/bin:/sbin:/bin", "HOME": "/root", "LANG": "C.UTF-8"}
        with open(f"{self.top}/said", "w+b") as said:
            words = [*enter, "sh", "-ec", f'cd "$0"\n{commands}', at]
            status = subprocess.run(words, env=env, stdin=subprocess.DEVNULL, stdout=said, stderr=subprocess.STDOUT, check=False, timeout=PATIENCE).returncode
        return status, content(f"{self.top}/said").decode()

    def must_run(self, commands, at="/root"):
        """Returns the output of commands, which must succeed."""
        status, output = self.runs(commands, at)
        if status:
            sys.exit(f"{self.name}: {commands}\nended with {status}: {output}\n{self.runs('systemctl --failed --no-legend; journalctl -n 30 --no-pager -o cat')[1]}")
        return output

    def put(self, path, name):
        """Copies a file of this machine to it."""
        with open(path, "rb") as file:
            subprocess.run(["nsenter", "-t", self.pid, "-m", "-w", "sh", "-c", 'cat > "$0"', name], stdin=file, check=True, timeout=PATIENCE)

    def take(self, name, path):
        """Copies a file of it to this machine."""
        with open(path, "wb") as file:
            subprocess.run(["nsenter", "-t", self.pid, "-m", "-w", "cat", name], stdout=file, check=True, timeout=PATIENCE)

    def knows(self, machine, name):
        """Lets a name lead to another machine, or to itself."""
        address = "127.0.0.1" if machine is self else machine.address
        self.must_run(f"sed -i '/ {name}$/d' /etc/hosts; echo '{address} {name}' >> /etc/hosts")


def wire(one, other):
    """Connects two machines."""
    subprocess.run(["ip", "link", "add", "wire", "netns", one.pid, "type", "veth", "peer", "name", "wire", "netns", other.pid], check=True)
    for it in (one, other):
        it.must_run(f"ip address add {it.address}/24 dev wire; ip link set wire up")


def join(one, other):
    """Connects two of several machines. Each has the same address on all its wires."""
    ends = (one, other, f"to-{other.name}"), (other, one, f"to-{one.name}")
    # The wire of a machine that was killed stays as long as a connection of it waits.
    for it, _, name in ends:
        it.must_run(f"! ip link show {name} > /dev/null 2>&1 || ip link delete {name}")
    names = [["netns", it.pid, "name", name] for it, _, name in ends]
    subprocess.run(["ip", "link", "add", *names[0], "type", "veth", "peer", *names[1]], check=True)
    for it, its, name in ends:
        it.must_run(f"ip address add {it.address} peer {its.address} dev {name}; ip link set {name} up")
