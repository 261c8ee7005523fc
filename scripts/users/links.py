"""Links, as the program keeps them: Python has no reader of the URL standard."""

import json
import os
import re
import subprocess
import sys
import tempfile

# So many request lines are read in one trial.
AT_ONCE = 1000
FOUNDING = 'vendor = "0001"\nname = "Links"\ncurators = ["links"]\nlicences = ["MIT"]\n'
LINK = re.compile(r"(?:^|(?<=[\s,;|(<\[\"']))(?:https?://|www\.)[^\s<>|\"'()\[\]]+", re.IGNORECASE)
# A link that the URL standard keeps as it is, since nothing in it can be written otherwise: no port, no escape, no segment of dots, no
# host that is a number or in Punycode.
KEPT = re.compile(r"https?://(?!.*(?:xn--|/\.))(?:[a-z0-9-]+\.)*[a-z][a-z-]*[a-z]/[A-Za-z0-9_./~-]*")


def candidates(texts):
    """Returns the texts in the values of a field that may be links, in their order. A value with one link may have spaces in it, and
    http:// is put before a host without a scheme; of a value with several each ends where a space does."""
    found = []
    for text in (it.strip() for it in texts):
        several = LINK.findall(text)
        if re.match(r"https?:", text, re.IGNORECASE) and len(several) < 2:
            found.append(text)
        elif several:
            found += [it if it[:4].lower() == "http" else f"http://{it}" for it in (it.rstrip(".,;") for it in several)]
        elif re.match(r"(www\.|[\w-]+(\.[\w-]+)+(/|$))", text) and "@" not in text:
            found.append(f"http://{text}")
    return list(dict.fromkeys(found))


class Links:
    """What the program keeps of links."""

    def __init__(self, program):
        self.program, self.known = program, {}

    def kept(self, text):
        """Returns a link as the registry keeps it, or None if it does not take it. To learn many at once is faster."""
        if text not in self.known:
            self.learn([text])
        return self.known[text]

    def keep(self, *links):
        """Notes links that a registry has, and so keeps as they are."""
        self.known.update((it, it) for it in links if it)

    def learn(self, texts):
        """Has the program read links, and keep them in a registry of their own."""
        fresh = sorted(set(texts) - set(self.known))
        lines = [line_of({"caller": "links", "key": f"l{at}", "order": "amend-org", "org": "links", "title": "Links", "site": it}) for at, it in enumerate(fresh)]
        start, good = 0, []
        while start < len(lines):
            taken, field = self.tried(lines[start : start + AT_ONCE])
            if field not in (None, "site"):
                sys.exit(f"{self.program} refuses {field} in {lines[start + taken]}")
            good += range(start, start + taken)
            start += taken + (field is not None)
        self.known.update(dict.fromkeys(fresh))
        self.known.update((fresh[it], fresh[it]) for it in good)
        others = [it for it in good if not (KEPT.fullmatch(fresh[it]) and fresh[it].isascii())]
        self.known.update(zip((fresh[it] for it in others), self.stored([lines[it] for it in others])))

    def tried(self, lines):
        """Returns how many lines the program takes before the first that it does not, and the field that it names then. After
        the lines comes one that is none, so that it acts on nothing."""
        ran = subprocess.run([self.program, "trial"], input=("".join(lines) + "{}\n").encode(), capture_output=True, check=False)
        said = re.fullmatch(rb"line (\d+): (\{.*\})\n", ran.stderr)
        if not said:
            sys.exit(f"{self.program} trial ended with status {ran.returncode}: {ran.stderr.decode(errors='replace')}")
        taken = int(said[1]) - 1
        return taken, json.loads(said[2])["detail"] if taken < len(lines) else None

    def stored(self, lines):
        """Returns the links of requests as a record has them."""
        if not lines:
            return []
        with tempfile.TemporaryDirectory(dir="/dev/shm" if os.path.isdir("/dev/shm") else None) as room:
            write(f"{room}/founding.toml", FOUNDING)
            write(f"{room}/requests", line_of({"caller": "links", "key": "links", "order": "enrol", "org": "links", "title": "Links", "site": "http://links.example/"}) + "".join(lines))
            self.output("found", f"{room}/links.db", f"{room}/founding.toml")
            self.output("apply", f"{room}/links.db", f"{room}/requests")
            record = self.output("history", f"{room}/links.db").splitlines()
        return [json.loads(it)["site"] for it in record[2:]]

    def output(self, *words):
        ran = subprocess.run([self.program, *words], capture_output=True, check=False)
        if ran.returncode:
            sys.exit(f"{self.program} {words[0]} ended with status {ran.returncode}: {ran.stderr.decode(errors='replace')}")
        return ran.stdout.decode()


def write(path, text):
    with open(path, "w", encoding="utf-8") as file:
        file.write(text)


def line_of(value):
    return json.dumps(value, ensure_ascii=False, separators=(",", ":")) + "\n"
