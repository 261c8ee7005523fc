#!/usr/bin/env python3
"""Makes the Debian package of the program that `make` built: out/usbreg_VERSION_ARCHITECTURE.deb, at the top of the
repository. It holds what `make install` and `make install-service` install, completions for shells, the documents, the
examples and the files of contrib/, and the scripts in scripts/users for a move and for stores without checksums. What is no
document lies outside of /usr/share/doc, which some machines leave out. A link of a document to a file that the package lacks
becomes its text.

Usage: package/build.py [--program PATH] [--version VERSION] [--into FOLDER]. It prints the path of the package. The version
is that of the program, with the time and the hash of the commit. The maintainer is DEBFULLNAME <DEBEMAIL>, or else the
commit's author. The same commit and program give the same bytes."""

import argparse
import gzip
import hashlib
import os
import re
import shutil
import subprocess
import sys
import tempfile

HERE = os.path.dirname(os.path.abspath(__file__))
TOP = os.path.dirname(HERE)
BUILT = f"{TOP}/crates/registry_cli/out/registry_cli"
DOCUMENTS, SHARED = "usr/share/doc/usbreg", "usr/share/usbreg"
# The folders that documents link to, and that stand outside of theirs.
OUTSIDE = ("contrib", "examples")
# The scripts for users, and what they are made of.
SCRIPTS = (
    "users/take_pid_codes.py", "users/read_pid_codes.py", "users/page_text.py", "users/pid_codes.py", "users/licence_aliases.tsv", "users/links.py",
    "users/page_history.py", "users/beside_a_registry.py", "users/move_orders.py", "users/move_files.py", "users/move_report.py",
    "users/write_pages.py", "users/site_pages.py", "users/read_record.py", "users/commit_pages.py", "users/page_orders.py",
    "users/renew_a_store.py", "lib/usbreg.py",
)


def said(*words, **how):
    return subprocess.run(words, check=True, stdout=subprocess.PIPE, text=True, cwd=TOP, **how).stdout.strip()


def read(path):
    with open(path, "rb") as file:
        return file.read()


def write(path, data, mode=0o644):
    os.makedirs(os.path.dirname(path), exist_ok=True)
    with open(path, "wb") as file:
        file.write(data if isinstance(data, bytes) else data.encode())
    os.chmod(path, mode)


class Commit:
    """The commit of the checkout: the version of a package of it, its time and its author."""

    def __init__(self, program):
        name, time, author = said("git", "log", "-1", "--format=%h%n%ct%n%an <%ae>").splitlines()
        self.time = time
        dirty = ".dirty" if said("git", "status", "--porcelain", "--untracked-files=no") else ""
        day = said("date", "-u", "-d", f"@{time}", "+%Y%m%d%H%M%S")
        self.version = f"{said(program, '--version').split()[1]}+git{day}.{name}{dirty}"
        self.author = f"{os.environ['DEBFULLNAME']} <{os.environ['DEBEMAIL']}>" if {"DEBFULLNAME", "DEBEMAIL"} <= set(os.environ) else author


def libraries(program):
    """Returns the packages that the program needs, of the C library in the version whose symbols it names."""
    needed = re.findall(r"\(NEEDED\).*\[(.*)\]", said("readelf", "--dynamic", program, env={**os.environ, "LC_ALL": "C"}))
    versions = [tuple(map(int, it.split(b"."))) for it in re.findall(rb"GLIBC_(\d+\.\d+)", read(program))]
    packages = [f"libc6 (>= {'.'.join(map(str, max(versions)))})"] if versions else []
    packages += ["libgcc-s1"] if "libgcc_s.so.1" in needed else []
    if others := set(needed) - {"libc.so.6", "libm.so.6", "libgcc_s.so.1", "ld-linux-x86-64.so.2"}:
        sys.exit(f"the program needs libraries whose packages are not known here: {' '.join(sorted(others))}")
    return ", ".join(packages)


def linked(stage, path):
    """Returns a document whose relative links are those of the package: one to a file that it lacks becomes its text."""
    def link(found):
        target = os.path.normpath(os.path.join(os.path.dirname(path), found[2]))
        target = f"{SHARED if target.split('/')[0] in OUTSIDE else DOCUMENTS}/{target}"
        if not os.path.exists(f"{stage}/{target}"):
            return found[1]
        return f"[{found[1]}]({os.path.relpath(target, os.path.dirname(f'{DOCUMENTS}/{path}'))}{found[3]})"

    return re.sub(r"\[([^\]\[]*)\]\((?![a-z]+:)([^)#\s]+)(#[^)]*)?\)", lambda it: link([it[0], it[1], it[2], it[3] or ""]), read(f"{TOP}/{path}").decode())


def put_documents(stage):
    """Puts the documents into a folder, and what they name beside."""
    shutil.copytree(f"{TOP}/docs", f"{stage}/{DOCUMENTS}/docs")
    for folder in OUTSIDE:
        shutil.copytree(f"{TOP}/{folder}", f"{stage}/{SHARED}/{folder}", dirs_exist_ok=True)
    pages = ["README.md", "CHANGELOG.md", *(f"docs/{it}" for it in sorted(os.listdir(f"{TOP}/docs")) if it.endswith(".md"))]
    for name in pages:
        write(f"{stage}/{DOCUMENTS}/{name}", "")
    for name in pages:
        write(f"{stage}/{DOCUMENTS}/{name}", linked(stage, name))


def put_files(stage, program, commit, version):
    """Puts what the package holds into a folder."""
    said("make", "-s", "install", "install-service", f"DESTDIR={stage}", "PREFIX=/usr", "UNITS=/lib/systemd/system", f"PROGRAM={program}")
    page = f"{stage}/usr/share/man/man1/usbreg.1"
    write(f"{page}.gz", gzip.compress(read(page), mtime=0))
    os.remove(page)
    write(f"{stage}/usr/share/lintian/overrides/usbreg", read(f"{HERE}/lintian-overrides"))
    os.makedirs(f"{stage}/etc/usbreg")
    for name in SCRIPTS:
        path = f"{TOP}/scripts/{name}"
        write(f"{stage}/{SHARED}/{name}", read(path), 0o755 if os.access(path, os.X_OK) else 0o644)
    said(f"{HERE}/completions.py", program, f"{stage}/usr/share")
    write(f"{stage}/{DOCUMENTS}/copyright", read(f"{HERE}/copyright"))
    put_documents(stage)
    write(f"{stage}/{SHARED}/usbreg.sha256", f"{hashlib.sha256(read(program)).hexdigest()}  /usr/bin/usbreg\n")
    date = said("date", "-u", "-R", "-d", f"@{commit.time}")
    change = f"usbreg ({version}) unstable; urgency=medium\n\n  * See CHANGELOG.md.\n\n -- {commit.author}  {date}\n"
    write(f"{stage}/{DOCUMENTS}/changelog.gz", gzip.compress(change.encode(), mtime=0))


def put_control(stage, program, commit, version):
    """Puts what dpkg reads beside the files: the description, the sums of the files and the scripts."""
    paths = sorted(os.path.relpath(f"{where}/{name}", stage) for where, _, names in os.walk(stage) for name in names)
    write(f"{stage}/DEBIAN/conffiles", "".join(f"/{it}\n" for it in paths if it.startswith("etc/")))
    size = sum(os.path.getsize(f"{stage}/{it}") for it in paths)
    told = {
        "VERSION": version, "ARCHITECTURE": said("dpkg", "--print-architecture"), "MAINTAINER": commit.author,
        "SIZE": str(-(-size // 1024)), "LIBRARIES": libraries(program),
    }
    control = re.sub("@([A-Z]+)@", lambda it: told[it[1]], read(f"{HERE}/control").decode())
    write(f"{stage}/DEBIAN/control", control)
    write(f"{stage}/DEBIAN/md5sums", "".join(f"{hashlib.md5(read(f'{stage}/{it}')).hexdigest()}  {it}\n" for it in paths))
    for name in ("postinst", "prerm", "postrm"):
        write(f"{stage}/DEBIAN/{name}", read(f"{HERE}/{name}"), 0o755)


def set_modes(stage, time):
    """Makes all readable by all, whatever the umask was, and gives all the time of the commit."""
    for where, _, names in os.walk(stage):
        for path in (where, *(f"{where}/{name}" for name in names)):
            os.chmod(path, 0o755 if os.access(path, os.X_OK) else 0o644)
            os.utime(path, (time, time))


def main():
    words = argparse.ArgumentParser(description="Makes the Debian package of the program that `make` built.")
    words.add_argument("--program", default=os.environ.get("USBREG", BUILT), help="the program [default: that of `make`]")
    words.add_argument("--version", help="the version of the package [default: that of the program and of the commit]")
    words.add_argument("--into", default=f"{TOP}/out", help="where to put the package [default: out]")
    given = words.parse_args()
    if not shutil.which("dpkg-deb") or not shutil.which("readelf"):
        sys.exit("dpkg-deb and readelf are needed: apt-get install dpkg binutils")
    if not os.path.exists(given.program):
        sys.exit(f"{given.program} is not there: `make` builds it")
    program = os.path.abspath(given.program)
    commit = Commit(program)
    version = given.version or commit.version
    os.makedirs(given.into, exist_ok=True)
    with tempfile.TemporaryDirectory() as stage:
        put_files(stage, program, commit, version)
        put_control(stage, program, commit, version)
        set_modes(stage, int(commit.time))
        words = said("dpkg-deb", "--root-owner-group", "--build", stage, os.path.abspath(given.into), env={**os.environ, "SOURCE_DATE_EPOCH": commit.time})
    print(re.search("'([^']*\\.deb)'", words)[1])


if __name__ == "__main__":
    main()
