"""Site files, and the links of files: what scripts/pack, scripts/unpack and scripts/ask share.

The link of a file is a base and the path of the file, each part of it percent-encoded but for unreserved characters (RFC 3986,
sections 2.1 and 2.3). A site file is the one of docs/FORMATS.md, "Site file"."""
import collections
import os
import re
import subprocess
import sys
import urllib.parse

TOP = os.path.dirname(os.path.dirname(os.path.realpath(__file__)))
BUILT = f"{TOP}/crates/ltq/out/ltq"
SITE_LIMIT = 67_108_864
BODY_LIMIT = 16 * 1_048_576
BODY_DEFAULT = 1_048_576
TYPES = {b".ttl": b"text/turtle", b".nt": b"application/n-triples"}
# the base of a folder that has a folder for each host, as scripts/unpack writes it
HOSTS = "http://"
HOST = re.compile(rb"[a-z0-9_-][a-z0-9._-]*(:[1-9][0-9]*)?|\[[0-9a-f:]+\](:[1-9][0-9]*)?")

Entry = collections.namedtuple("Entry", "link status kind coding body")


class Refused(Exception):
    """What a script says before it ends with status 1."""


class NoSite(Exception):
    """The place of the first fault of what is no site file."""


def shown(name):
    """A name, or a text, on one line: what can't be printed is escaped."""
    text = os.fsdecode(name)
    return "".join(it if it.isprintable() else ascii(it)[1:-1] for it in text)


def program():
    """The program that scripts/ask runs: the one that LTQ_PROGRAM names, or scripts/ltq, which proves and builds it where it must."""
    return os.environ.get("LTQ_PROGRAM") or f"{TOP}/scripts/ltq"


def built_program():
    """The program where one is there to be run at once, or None."""
    named = os.environ.get("LTQ_PROGRAM")
    return named or (BUILT if os.access(BUILT, os.X_OK) else None)


def line_at(text, at):
    """The number of the line in which a place of a text stands, from 1, and that line."""
    begin = text.rfind(b"\n", 0, at) + 1
    end = text.find(b"\n", at)
    return text.count(b"\n", 0, begin) + 1, text[begin : len(text) if end < 0 else end]


# ---- from a folder to a site file


def files_below(folder):
    """The paths of the files below a folder that are documents by their ending, each as the tuple of its parts, in the order of their bytes.
    Hidden names and symbolic links are left out, and so is what is no regular file."""
    found, folders = [], [()]
    while folders:
        above = folders.pop()
        with os.scandir(os.path.join(os.fsencode(folder), *above)) as entries:
            for it in entries:
                parts = (*above, it.name)
                if it.name.startswith(b".") or it.is_symlink():
                    continue
                if it.is_dir():
                    folders.append(parts)
                elif it.is_file() and os.path.splitext(it.name)[1] in TYPES:
                    found.append(parts)
    return sorted(found)


def encoded(part):
    return urllib.parse.quote(part, safe="")


def last_part(name, keep_ending):
    """What the last part of a link stands for, of a file's name: nothing where the link is its folder's."""
    root = os.path.splitext(name)[0]
    return name if keep_ending else b"" if root == b"index" else root


def link_of(base, parts, keep_ending):
    """The link of a file, by its path below the folder. Below the base HOSTS the first part is a host, and stands as it is."""
    names = (*parts[:-1], last_part(parts[-1], keep_ending))
    if base != HOSTS:
        return (base if base.endswith("/") else f"{base}/") + "/".join(map(encoded, names))
    host, *names = names
    if not names or not HOST.fullmatch(host):
        raise Refused(f"{shown(b'/'.join(parts))}: with the base {HOSTS} each file stands in the folder of its host")
    return HOSTS + host.decode() + "/" + "/".join(map(encoded, names))


def linked(folder, base, keep_ending):
    """The files below a folder, by their links."""
    if re.match("https:", base, re.I):
        raise Refused(f"{shown(base)}: an https link can't stand in a site file, and ltq looks none up: take http")
    files = {}
    for parts in files_below(folder):
        link = link_of(base, parts, keep_ending)
        if link in files:
            raise Refused(f"{shown(b'/'.join(parts))}: has the link of {shown(b'/'.join(files[link]))}, {link}")
        files[link] = parts
    return files


def body_of(folder, parts):
    name = shown(b"/".join(parts))
    with open(os.path.join(os.fsencode(folder), *parts), "rb") as it:
        body = it.read(BODY_LIMIT + 1)
    if len(body) > BODY_LIMIT:
        raise Refused(f"{name}: is longer than {BODY_LIMIT:,} bytes, the most that a document may have")
    return body


def block_of(link, kind, body):
    return b"link %s\nstatus 200\ntype %s\nbody %d\n%s\n" % (os.fsencode(link), kind, len(body), body)


def packed(folder, base, keep_ending=False):
    """The site file of a folder, and its files by their links."""
    try:
        files = linked(folder, base, keep_ending)
        blocks, length = [b"site 1\n"], len(b"site 1\nend\n")
        for link in sorted(files):
            body = body_of(folder, files[link])
            blocks.append(block_of(link, TYPES[os.path.splitext(files[link][-1])[1]], body))
            length += len(blocks[-1])
            if length > SITE_LIMIT:
                raise Refused(f"{shown(b'/'.join(files[link]))}: with it the site file is longer than {SITE_LIMIT:,} bytes, the most that it may have")
    except OSError as fault:
        raise Refused(f"{shown(fault.filename or folder)}: {fault.strerror}") from fault
    return b"".join([*blocks, b"end\n"]), files


def place_of_fault(runs, site):
    """Where a site file is refused by the program, or None where it isn't."""
    words = [runs, "site", "--criterion=none", "--limit=1", "SELECT ?s WHERE { ?s ?p ?o }", "http://site.test/"]
    said = subprocess.run(words, input=site, stdout=subprocess.DEVNULL, stderr=subprocess.PIPE, check=False)
    if said.returncode == 6:
        return int(said.stderr.split()[-1])
    if said.returncode not in (0, 3, 4):
        raise Refused(f"{runs}: ended with status {said.returncode}, so the site file isn't judged\n{said.stderr.decode(errors='replace')}".rstrip())
    return None


# ---- from a site file to its entries


def field(site, at, name, must=True):
    """The value of the line at a place, with the place behind it, where the line begins with the name; else None, where it may be missing."""
    end = site.find(b"\n", at)
    head = name + b" "
    if end >= 0 and site.startswith(head, at):
        return site[at + len(head) : end], end + 1
    if must:
        raise NoSite(at)
    return None, at


def number(site, at, name):
    value, after = field(site, at, name)
    if not re.fullmatch(rb"0|[1-9][0-9]{0,9}", value):
        raise NoSite(at)
    return int(value), after


def entry_at(site, at):
    """The entry that begins at a place, and the place behind it."""
    link, at = field(site, at, b"link")
    status, at = number(site, at, b"status")
    kind, at = field(site, at, b"type", False)
    coding, at = field(site, at, b"coding", False)
    _, at = field(site, at, b"location", False)
    length, begin = number(site, at, b"body")
    end = begin + length
    if site[end : end + 1] != b"\n":
        raise NoSite(at)
    return Entry(os.fsdecode(link), status, kind or b"", coding or b"identity", site[begin:end]), end + 1


def entries_of(site):
    """The entries of a site file."""
    if not site.startswith(b"site 1\n"):
        raise NoSite(0)
    found, at = [], len(b"site 1\n")
    while not site.startswith(b"end\n", at):
        entry, at = entry_at(site, at)
        found.append(entry)
    if at + len(b"end\n") != len(site):
        raise NoSite(at + len(b"end\n"))
    return found


def run_main(name, main):
    """Runs a script, and ends it."""
    try:
        status = main(sys.argv[1:])
        sys.stdout.flush()
    except Refused as it:
        print(f"{name}: {it}", file=sys.stderr)
        status = 1
    except BrokenPipeError:
        os.dup2(os.open(os.devnull, os.O_WRONLY), sys.stdout.fileno())
        status = 1
    except OSError as fault:
        print(f"{name}: {shown(fault.filename or 'the output')}: {fault.strerror}", file=sys.stderr)
        status = 1
    except KeyboardInterrupt:
        status = 130
    sys.exit(status)
