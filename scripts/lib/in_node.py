"""The tests of what in the page needs no browser, `page_tables.test.mjs`, by `node --test`."""

import os
import shutil
import subprocess

from lib.usbreg import TOP, content, folder, write

WEB = f"{TOP}/web"


def failed_in_node(changes=()):
    """Tests the page with these changes, each a file, what the file has, and what it gets instead. Returns what failed, or
    nothing."""
    with folder() as room:
        shutil.copytree(WEB, f"{room}/web")
        for file, old, new in changes:
            write(f"{room}/web/{file}", content(f"{room}/web/{file}").decode().replace(old, new))
        # so that node takes the files for modules, as a browser does
        write(f"{room}/web/package.json", '{"type": "module"}')
        words = ["node", "--test", "--test-reporter=tap", f"{TOP}/scripts/lib/page_tables.test.mjs"]
        ran = subprocess.run(words, env={**os.environ, "WEB": f"{room}/web", "TOP": TOP}, capture_output=True, text=True, check=False)
    failed = [it for it in ran.stdout.splitlines() if it.startswith("not ok")]
    return "\n".join(failed) or (ran.stdout + ran.stderr if ran.returncode else "")
