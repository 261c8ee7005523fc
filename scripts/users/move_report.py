"""The report of a move: one line for each page that is not taken, loses something or is changed, with what a curator can do about
it."""

import re

# A page that the registry will know nothing of; one that is not taken, whose number nobody can ask for; one whose number goes back
# at once; one of which a part gets lost; and one that is taken in another form.
LEFT_OUT, RESERVED, RETURNED, LOST, CHANGED = OUTCOMES = ("left out", "reserved", "returned", "lost", "changed")
# By kind, of pages that are not taken: what is the matter, and what to do. They are reserved if they name a number that nothing
# else of the repository has, and else left out.
REFUSALS = {
    "no folder": ("it is no folder", "Remove it; or move the page into a folder named by its number, as index.md."),
    "no index": ("it has no index.md", "Write the page, or remove the folder."),
    "other index": ("its page is {names}, and not index.md", "Write the page as index.md."),
    "nested": ("it is below another folder", "Move it beside that folder, if it is the page of a number; or remove it."),
    "symlink": ("it is a symbolic link", "Write the page in its place, or remove it."),
    "no number": ("its folder is not named by four hexadecimal digits, or is 0000", "Name the folder by the number."),
    "fixed": ("its number is one of those that stay reserved", "Nothing, if it is for tests. If not, give other numbers by --fixed."),
    "twice": ("{other} has the same number, and is taken", "Find out which page is right, and remove the other one."),
    "no front matter": ("it does not begin with fields between two lines of three hyphens", "Write them, or remove the page."),
    "not utf-8": ("it is not UTF-8: line {line} has the byte {byte}", "Save the page as UTF-8."),
    "no yaml": ("its fields are not YAML: {why}", "Mend that place. A value that has a colon or begins with a sign stands in quotes."),
    "unpublished": ("it is not published", "Remove `published: false`, if its number is taken."),
    "redirect": ("it leads to {to}", "Remove `redirect_to`, if its number is taken."),
    "other number": ("its field {field} names another number: {names}", "Mend the field, or move the page into the folder of that number."),
    "layout": ("its layout is {layout}, and not pid", "Write `layout: pid`, if it is the page of a device."),
    "missing": ("it has no {field} that can be taken", "Write what is missing into the page."),
    "vendor": ("its vendor, {vendor}, is not the one that moves", "Nothing. For its numbers name that vendor by --also; they are then reserved."),
    "vendor there": ("its vendor, {vendor}, is not the one that moves", "Nothing; or let a curator send `release` for a number that is free."),
    "removed": ("its page was removed, {how}", "Nothing; or let a curator send `release`, if the number is free."),
    "reserved there": ("its number is reserved in the registry", "Let a curator send `release`, if the page is right, and run this again."),
    "owned there": ("its number belongs to {org} in the registry", "Mend the owner. A number never changes its owner."),
    "list needed": ("it has no licence, or no source that is a link, and its number comes by `usbreg import` alone", "Write both into the page; or import it for {org}."),
    "terms needed": ("it has no licence, or no source that is a link, and no order changes a number without", "Write both into the page."),
    "both there": ("it has changed, and the registry says otherwise than its base", "Let the keeper send `amend` or `amend-org`, if the page is right."),
    "org removed": ("no order removes an organisation", "Leave the page; its numbers can be returned."),
    "returned there": ("its number was returned since it was taken", "Remove the page."),
}
# By kind, of pages that are taken: what becomes of the page, what is the matter with it, and what to do.
REASONS = {
    "withdrawn": (RETURNED, "it is withdrawn ({field}: {why}): its owner gets the number, and it goes back at once", "Remove the field {field}, if its number is in use."),
    "old address": (RESERVED, "its field {field} names other numbers: {names}", "Nothing; or let a curator send `release` for one that is free."),
    "terms": (LOST, "it comes without licence, site and source, since {why}", "Mend the page; or let the keeper send `amend` later, with all three."),
    "unknown": (
        LOST, "it comes without licence, site and source, since {part} is not known",
        "Say what it means in a copy of licence_aliases.tsv, and give that by --aliases; or let the keeper send `amend` later.",
    ),
    "long licence": (LOST, "it comes without licence, site and source, since its licence has more than 200 bytes", "Shorten it; or say what it means by --aliases."),
    "text": (LOST, "the text below its fields, {size} bytes, is not taken", "Nothing: the registry has no place for it. Keep the old pages."),
    "field": (LOST, "the field {field} is not taken", "Nothing: the registry has no place for it. Keep the old pages."),
    "key": (LOST, "a field whose name is no text, in line {line}, is not taken", "Nothing: the registry has no place for it. Keep the old pages."),
    "comment": (LOST, "the comment {comment} is not taken", "Write a value that has a space and a # in double quotes, if it is none."),
    "files": (LOST, "its other files are not taken: {names}", "Nothing: the registry has no place for them. Keep the old pages."),
    "no fields": (CHANGED, "it has no fields that can be read ({why}), and is taken by the name of its folder", "Mend the page."),
    "field twice": (CHANGED, "the field {field} comes twice: the last one counts, and {dropped} is not taken", "Remove one of the two."),
    "list": (CHANGED, "its {field} is a list, and is taken as: {text}", "Write it as one text, if this is not good."),
    "title": (CHANGED, "its title {written}, of {size} bytes, is taken as: {title}", "Shorten it to 200 bytes without control characters, if this is not good."),
    "no title": (CHANGED, "it has no title, and the name of its folder stands for it", "Write a title into the page."),
    "org layout": (CHANGED, "its layout is {layout}, and it is taken as an organisation", "Write `layout: org`; or remove the page, if it is none."),
    "licence": (CHANGED, "its licence {written} is taken as {meant}", "Nothing, if it means that. If not, give another meaning by --aliases."),
    "alternative": (LOST, "of its licence {written} the alternative {parts} is not known, and not taken", "Nothing; or say what it means by --aliases."),
    "stand-in": (CHANGED, "its licence {written} is taken as {meant}, which --unknown names", "Say what it means by --aliases; or let the keeper send `amend` later."),
    "other owner": (CHANGED, "its owner {owner} is taken as {name}", "Nothing, if they are the same. If not, write the page org/{owner}/index.md."),
    "other owner, no folder": (CHANGED, "its owner {owner} is taken as {name}", "Nothing, if they are the same. If not, name the right owner in the page."),
    "no page": (
        CHANGED, "its owner {owner} has no page, and is enrolled by that name, with an address below --home as its site",
        "Write the page org/{owner}/index.md; or let the keeper send `amend-org` later.",
    ),
    "no page, no folder": (
        CHANGED, "its owner {owner} has no page, and is enrolled by that name, with an address below --home as its site",
        "Let the keeper send `amend-org` later; or name another owner in the page, since no folder can have that name.",
    ),
    "slug": (
        CHANGED, "the slug of {name} is {slug}, since {why}",
        "Nothing, if it is good. It is for good: if not, write another one into a copy of names.tsv, and give that by --names.",
    ),
    "link": (CHANGED, "its {field} {written} is taken as {link}", "Nothing, if it leads there. Mend the page, if it does not."),
    "links": (LOST, "its {field} names several links: {link} is taken, and {others} is not", "Leave the one in the page that is to be taken."),
    "source": (CHANGED, "its source stands for its site, since {why}", "Write a site into the page; or let the keeper send `amend` later."),
    "home": (CHANGED, "{link} stands for its site, since {why}", "Write a site into the page; or let the keeper send `amend-org` later."),
    "newer": (CHANGED, "the registry says otherwise since it was taken, and keeps that", "Nothing, if the registry is right. If not, let the keeper amend it."),
    "both": (LOST, "it has changed, and so has the registry since: the page is not taken", "Let the keeper send `amend`, if the page is right."),
    "list only": (LOST, "its title is another in the registry, where a change needs a licence and a source", "Write both into the page; or let the keeper amend it."),
}
HEADING = ("page", "outcome", "what", "what to do")


class Report:
    def __init__(self):
        self.lines = []

    def tell(self, page, kind, **details):
        outcome, what, to_do = REASONS[kind]
        self.lines.append((page, outcome, what.format(**details), to_do.format(**details)))

    def refuse(self, page, reserved, kind, **details):
        what, to_do = REFUSALS[kind]
        self.lines.append((page, RESERVED if reserved else LEFT_OUT, what.format(**details), to_do.format(**details)))

    def table(self):
        """Returns the lines with what is left out first, and then what is reserved."""
        return [HEADING, *sorted(self.lines, key=lambda it: OUTCOMES.index(it[1]))]


def write_table(path, rows):
    """Writes rows with a tab between their columns. A character that controls a terminal or turns the direction of a text is written
    as its escape, or as a space if it divides words."""
    with open(path, "w", encoding="utf-8", errors="backslashreplace", newline="\n") as file:
        file.writelines("\t".join(shown(str(it)) for it in row) + "\n" for row in rows)
    return path


def shown(text):
    return re.sub("[\x00-\x08\x0b\x0c\x0e-\x1f\x7f-\x9f\u2028-\u202e\u2066-\u2069\ufeff]", lambda it: f"\\u{ord(it[0]):04x}", re.sub(r"[\t\r\n]+", " ", text))
