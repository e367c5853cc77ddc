#!/usr/bin/env python3
"""Runs the built program on random words near the edges (docs/FORMATS.md, "Words") and compares how it answers with what an oracle's
reading of the words says: code 12 exactly for a command `web`, code 2 exactly for no command, and another code for the rest.
With codes 2 and 12 nothing is written but the report, and but for `site` nothing of the input is read.

    refusals.py PROGRAM ORACLE SEED COUNT

Only the reading of words is the oracle's; the words are made here."""
import collections
import os
import random
import subprocess
import sys
import tempfile

program, oracle, seed, count = sys.argv[1], sys.argv[2], int(sys.argv[3]), int(sys.argv[4])
sys.path.insert(0, oracle)
sys.dont_write_bytecode = True
from ltq_oracle import words as reading  # noqa: E402  (of the oracle)

STAGE = 14
SITE = b"site 1\nend\n"
REPORTS = {
    2: b"status 2 usage\nltq site [OPTIONS] QUERY SEED...\nltq web [OPTIONS] QUERY SEED...\nltq self [OPTIONS] N\n",
    12: b"status 12 not built\n",
}
COMMANDS = ["site"] * 12 + ["web"] * 18 + ["self"] * 8 + ["Web", "we", "save", "help", "--help", "-h", ""]
NO_NUMBERS = ["+1", "-1", "", " 1", "1 ", "1.0", "0x1", "٣", "99999999999999999999999"]
# of each option the values that it takes, and others
VALUES = {
    "--criterion": (["all", "none", "match"], ["ALL", "matc", "all ", ""]),
    "--limit": (["1", "500", "100000", "0000100000"], ["0", "100001"] + NO_NUMBERS),
    "--body": (["1", "16", "016"], ["0", "17"] + NO_NUMBERS),
    "--workers": (["0", "4", "16", "00000016"], ["17"] + NO_NUMBERS),
    "--lanes": (["1", "32", "0032"], ["0", "33"] + NO_NUMBERS),
    "--tries": (["1", "10", "010"], ["0", "11"] + NO_NUMBERS),
    "--via": (["a:1", "127.0.0.1:8080", "A.b-9:65535", "a:00080", ".:1"],
              ["a:65536", "a:0", "a:", ":80", "a", "", "a:b", "a:1:1", "a_b:1", "é:1", "[::1]:80", "a:1 ", "a b:1", "a:-1", "a:+1"]),
}
OPTIONS = {"site": ["--criterion", "--limit", "--body", "--workers"], "self": ["--workers"]}
UNKNOWN = ["--depth", "--format", "--lim", "--LIMIT", "-limit", "-l", "--", "--help", "-h", "--version", "--=1", "---limit", "-", "-1"]
QUERIES = ["SELECT ?s WHERE { ?s ?p ?o }"] * 6 + ["SELECT", "", "-", "é"]
SEEDS = ["http://a.test/1", "http://a.test/1#me", "https://a.test/", "HTTP://A.test:80/./1", "http://[::1]/"]
NO_SEEDS = ["", "x", "-", "mailto:a@a.test", "http://u@a.test/", "http://", "http://a.test:65536/", "http://a b/"]
COUNTS = (["1", "2", "7", "007", "40", "2000"], ["0", "2001"] + NO_NUMBERS)


def one_of(pick, values):
    """A value of the first list mostly, or else one of the second."""
    return pick(values[0] if pick(range(8)) else values[1])


def option(pick, name):
    """An option with a value, which may be meant for another, in one word or two, or without a value."""
    value = one_of(pick, VALUES[name] if pick(range(20)) else VALUES[pick(sorted(VALUES))])
    form = pick(range(30))
    return [name] if form == 0 else [name + "=" + value] if form < 13 else [name, value]


def places(pick, command):
    """The words that stand for themselves by their place, each in a list."""
    if command == "self":
        return [[one_of(pick, COUNTS)] for _ in range(pick([1] * 18 + [0, 2]))]
    if not pick(range(60)):
        return [[QUERIES[0]]] + [[SEEDS[0]]] * pick([1000, 1001])
    return [[pick(QUERIES)]] + [[pick(SEEDS if pick(range(12)) else NO_SEEDS)] for _ in range(pick([1] * 12 + [2, 2, 3, 3, 0]))]


def words_by(rnd):
    pick = rnd.choice
    command = pick(COMMANDS)
    parts = places(pick, command)
    own = OPTIONS.get(command, sorted(VALUES))
    names = rnd.sample(own, pick(range(min(4, len(own) + 1))))
    if not pick(range(15)):
        names.append(pick(own))
    if not pick(range(20)):
        names.append(pick(sorted(VALUES)))
    for name in names:
        parts.insert(rnd.randint(0, len(parts)), option(pick, name))
    if not pick(range(15)):
        parts.insert(rnd.randint(0, len(parts)), [pick(UNKNOWN)])
    words = [command] + [word for part in parts for word in part]
    return words if pick(range(40)) else words[: rnd.randint(0, len(words))]


def command_of(words):
    try:
        command, settings = reading.read_words(words, STAGE)
    except reading.Usage:
        return None, None
    return command, settings


def answer(words):
    """The code, what was written and reported, and how many bytes of the input were read."""
    with tempfile.TemporaryFile() as file:
        file.write(SITE)
        file.seek(0)
        ran = subprocess.run([program] + words, stdin=file, capture_output=True, timeout=60)
        return ran.returncode, ran.stdout, ran.stderr, os.lseek(file.fileno(), 0, os.SEEK_CUR)


def fault(words, command, got):
    """What is wrong with an answer, or None."""
    code, written, report, read = got
    wanted = {None: 2, "web": 12}.get(command)
    if wanted is None:
        if code in REPORTS:
            return "code %d for words of the command %s" % (code, command)
    elif code != wanted:
        return "code %d, wanted %d" % (code, wanted)
    elif (written, report) != (b"", REPORTS[code]):
        return "with code %d something else was written than its report" % code
    if command != "site" and read:
        return "%d bytes of the input were read" % read
    return None


def main():
    kinds, wrong = collections.Counter(), 0
    for i in range(count):
        words = words_by(random.Random("%d/%d" % (seed, i)))
        command, settings = command_of(words)
        kinds[command or "no command"] += 1
        if command == "self" and settings.n > 40:
            continue
        found = fault(words, command, answer(words))
        if found:
            wrong += 1
            print("refusals: %d/%d: %s: %r" % (seed, i, found, words[:12]))
    print("refusals: %d of %d words are answered as they are read%s" % (
        count - wrong, count, "".join("; %s %d" % pair for pair in sorted(kinds.items()))))
    return 1 if wrong else 0


if __name__ == "__main__":
    sys.exit(main())
