"""What scripts/ask says of the codes of `ltq`: where a text is refused and why, which word is, and what an answer lacks."""
import re

from shown_rows import printable, width
import site_files

QUERY_LIMIT = 65_536
SHOWN = 76
REASONS = {
    "syntax": "nothing that a query may have here begins so",
    "unsupported": 'it is SPARQL, but not in what ltq reads (docs/FORMATS.md, "Queries")',
    "deep": "more than 32 brackets are open at once, or there are more than 256 {",
}
NUMBERS = {"--limit": (1, 100_000), "--body": (1, 16), "--workers": (0, 16), "--lanes": (1, 32), "--tries": (1, 10)}
OF_WEB = ("--lanes", "--tries", "--via")
CRITERIA = ("all", "none", "match")
EMPTY = '""'
VIA = re.compile(r"[A-Za-z0-9.-]+:([0-9]+)")


def clipped(line, at):
    """A part of a line round a place, as text of one line, and how many columns stand before the place."""
    text, before = line.decode(errors="replace"), len(line[:at].decode(errors="replace"))
    begin = max(0, before - SHOWN // 2) if len(text) > SHOWN else 0
    head = ("..." if begin else "") + printable(text[begin:before])
    tail = printable(text[before : begin + SHOWN]) + ("..." if len(text) > begin + SHOWN else "")
    return head + tail, width(head)


def caret(text, at):
    """The line of a text in which a place stands, with a caret below the place; a column counts characters."""
    number, line = site_files.line_at(text, at)
    inside = at - (text.rfind(b"\n", 0, at) + 1)
    shown, columns = clipped(line, inside)
    column = len(line[:inside].decode(errors="replace")) + 1
    return f"line {number}, column {column}", f"  {shown}\n  {' ' * columns}^"


def query_refused(query, at, why):
    if why == "long":
        return f"the query is refused: it has {len(query):,} bytes, and {QUERY_LIMIT:,} are the most"
    where, lines = caret(query, at)
    reason = "it ends too early" if at >= len(query) else REASONS[why]
    if why == "syntax" and re.match(rb"[\w.-]*:", query[at:]):
        reason += "; is its prefix declared?"
    elif why == "syntax" and query[:at].rstrip().endswith((b"+", b"-")):
        reason += "; a sign stands right before a number, and paths such as p+ aren't read"
    return f"the query is refused at {where} (byte {at}): {reason}\n{lines}"


def site_refused(name, site, at):
    """What is said of a site file that is refused; None stands for one that can't be read again."""
    if site is None:
        return f"{name} is no site file: the fault is at byte {at}"
    number, line = site_files.line_at(site, at)
    if at >= len(site):
        return f"{name} is no site file: it ends at line {number}, where another line must stand (byte {at})"
    hint = ""
    if at == 0:
        hint = "; the first line is `site 1`, and scripts/pack makes a site file of a folder"
    elif line.startswith(b"body "):
        hint = "; its number isn't the length of what follows"
    elif not re.match(rb"(link|status|type|coding|location) |end$", line):
        hint = "; is the number of the body before it the length of that body?"
    return f"{name} is no site file: line {number} can't stand there (byte {at}){hint}\n  {clipped(line, 0)[0]}"


def is_number(text, least, most):
    return re.fullmatch("[0-9]+", text) is not None and least <= int(text.lstrip("0")[:9] or "0") <= most


def option_refused(command, option):
    """Why an option is refused, or None. An option is its name, and its value or None."""
    name, value = option
    if name not in (*NUMBERS, *OF_WEB, "--criterion"):
        return "ltq has no such option"
    if name in OF_WEB and command != "web":
        return "it is an option of web alone"
    if value is None:
        return "its value is missing"
    if name == "--criterion":
        return None if value in CRITERIA else "it is all, none or match"
    if name == "--via":
        found = VIA.fullmatch(value)
        return None if found and is_number(found[1], 1, 65_535) else "it is HOST:PORT"
    return None if is_number(value, *NUMBERS[name]) else "its range is {:,} to {:,}".format(*NUMBERS[name])


def first_refused(seeds, is_refused):
    """The first seed that is refused, by halves, or None."""
    least, most = 0, len(seeds)
    if not is_refused(seeds):
        return None
    while most - least > 1:
        middle = (least + most) // 2
        if is_refused(seeds[least:middle]):
            most = middle
        else:
            least = middle
    return seeds[least]


def option_of(word):
    return word if isinstance(word, str) else "=".join(it for it in word if it is not None)


def words_refused(command, query, options, seeds, is_refused):
    """Which word is refused, and why. `is_refused` says whether the program refuses a list of seeds."""
    try:
        query.decode()
    except UnicodeDecodeError as it:
        return f"the query is refused: it is no UTF-8 at byte {it.start}"
    names = [it[0] for it in options]
    for at, option in enumerate(options):
        why = "it is given twice" if option[0] in names[:at] else option_refused(command, option)
        if why:
            return f"the word {printable(option_of(option))} is refused: {why}"
    if len(seeds) > 1000:
        return f"the seeds are refused: there are {len(seeds):,}, and 1,000 are the most"
    seed = first_refused(seeds, is_refused)
    if seed is None:
        return 'the words are refused (docs/FORMATS.md, "Words")'
    return f"the seed {site_files.shown(seed) or EMPTY} is refused: a seed is http://HOST/PATH, without a user name"


def causes(report):
    """The failed links of a report, each with its cause."""
    lines = [it.split(" ", 2) for it in report.splitlines() if it.startswith("failed ")]
    return [(it[1], it[2]) for it in lines]


def counts(report):
    """The numbers of the last line of a report, by their names."""
    return {name: int(value) for name, value in re.findall(r"(\w+) (\d+)", report.splitlines()[-1])}


def with_line(link, cause, body_of):
    """A failed link with its cause, and with the line of the fault where the cause has a place."""
    place = re.fullmatch(r"(?:syntax|deep) (\d+)", cause)
    body = body_of(link) if place else None
    return f"{link} ({cause})" if body is None else f"{link} ({cause}, line {site_files.line_at(body, int(place[1]))[0]})"


def some_of(failed, body_of):
    named = ", ".join(with_line(link, cause, body_of) for link, cause in failed[:3])
    return named + (f", and {len(failed) - 3} more" if len(failed) > 3 else "")


def many(count, what):
    return f"{count:,} {what}" if count == 1 else f"{count:,} {what}s"


def lacking(code, report, body_of):
    """What the answer of a run with code 3 or 4 lacks, in one line. `body_of` gives a link's document, or None."""
    failed, of = causes(report), counts(report)
    if code == 3:
        return f"{of['failed']:,} of {many(of['settled'], 'look-up')} failed, so the answer is whole but for their documents: {some_of(failed, body_of)}"
    also = f"; {of['failed']:,} failed: {some_of(failed, body_of)}" if failed else ""
    return f"the limit is reached after {many(of['settled'], 'look-up')}, and {many(of['queued'], 'link')} that may have more of the answer came too late: --limit N takes more{also}"
