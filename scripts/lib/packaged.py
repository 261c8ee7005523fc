"""The Debian package that scripts make of a program."""

from lib.usbreg import TOP, run, same

# A fast compression: the packages are installed, and not kept.
QUICK = {"DPKG_DEB_COMPRESSOR_TYPE": "gzip", "DPKG_DEB_COMPRESSOR_LEVEL": "1"}


def made(usbreg, room, version):
    """Makes a package of this version, and returns its path."""
    words = [f"{TOP}/package/build.py", "--program", usbreg, "--version", version, "--into", room]
    status, output, errors = run(words, env=QUICK)
    same("the package is made", (status, errors), (0, b""))
    return output.decode().strip()
