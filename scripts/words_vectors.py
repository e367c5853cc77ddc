"""Cases of words for the program `vectors`, and the oracle's answers: those at the edges, and random ones.

LTQ_ORACLE names the oracle's folder. crates/vectors/src/words.rt has the form of an answer.
"""
import os
import random
import sys

sys.path.insert(0, os.environ["LTQ_ORACLE"])
from ltq_oracle import words as oracle  # noqa: E402

# The oracle knows by this stage which options there are.
STAGE = 14
SEED = "http://a.test/1#me"
LONG = "9" * 30
OPTIONS = {"site": ["--criterion", "--limit", "--body", "--workers"], "self": ["--workers"],
           "web": ["--criterion", "--limit", "--body", "--workers", "--lanes", "--tries", "--via"]}
RANGES = {"--limit": (1, 100000), "--body": (1, 16), "--workers": (0, 16), "--lanes": (1, 32), "--tries": (1, 10)}
CRITERIA = ["all", "none", "match", "All", "matc", "match ", "", "-", "x"]
VIAS = ["a.test:80", "A-b.c:1", "a:65535", "a:65536", "a:0", ":1", "a:", "a", "", "a:b:1", "a:1:", "[::1]:80", "a b:1", "a_b:2", "127.0.0.1:08080", "-:1", "-a:1",
        "\u00e9:1", "a:\u0661", "..:5", "a:000000080", "a::1", "/:1", "@:1", "`:1", "{:1", "Z.z:9"]
NUMBERS = ["0", "00", "007", "000000016", "000000000", "123456789", "000000500", LONG, "0" * 30 + "9", "", "-1", "+1", "1.", "1 ", "x", "\u0661", "-", "--", "4294967297",
           "18446744073709551616", "18446744073709551617"]
SEEDS = [SEED, "http://b.test", "https://c.test/x?y#z", "HTTP://A.Test:80/x/../y#z", "http://[::1]/", "http://a.test/\u00e9", "http:d.test"]
NO_SEEDS = ["x", "", "mailto:a@a.test", "http://u@a.test/", "ftp://a.test/", "-", "//a.test/"]
QUERIES = ["SELECT ?s WHERE { ?s ?p ?o }", "q", "", "-", "\u00e9", "help"]
STRAY = ["-h", "--help", "-V", "--bogus", "--limit", "--lim", "--", "-", "-x", "-1", "--=1", "---", "--help=1", "-l5", "--depth", "--format=json", "--workers4", "--\u00e9"]


def shown(text):
    return "=" + text if all("!" <= c <= "~" for c in text) else "x" + text.encode("utf-8").hex()


def answer(words):
    try:
        command, s = oracle.read_words(words, STAGE)
    except oracle.Usage:
        return "usage"
    if command == "self":
        return "self %d %d" % (s.n, s.workers)
    via = "none" if s.via is None else "%s:%d" % s.via
    parts = [command, s.criterion, s.limit, s.workers, s.body, s.lanes, s.tries, via, shown(s.query)]
    return " ".join(map(str, parts + [shown(link.text) for link in s.seeds]))


def edges():
    """Each value at the ends of its range and one past them, options in every form, and words that ask for help."""
    rest = ["q", SEED]
    cases = [[], [""], ["x"], ["Site"] + rest, ["help"], ["-h"], ["--help"], ["--", "site"] + rest]
    for name, options in OPTIONS.items():
        places = ["7"] if name == "self" else rest
        cases += [[name], [name] + places, [name] + places + ["9"], [name, "--help"], [name, "-h"] + places, [name] + places + ["--version"], [name, "--depth", "3"] + places]
        for option in OPTIONS["web"]:
            values = NUMBERS + VIAS + CRITERIA if option in options else ["1"]
            values = values + [str(n) for low, high in [RANGES.get(option, (1, 2000))] for n in (low - 1, low, high, high + 1)]
            cases += [[name, option, value] + places for value in values] + [[name, option + "=" + value] + places for value in values]
            cases += [[name] + places + [option, "1"], [name, option, "1", option, "1"] + places, [name, option + "=1", option, "1"] + places, [name, option], [name] + places + [option]]
            cases += [[name, option[:-1], "1"] + places, [name, option[1:], "1"] + places, [name, option + "1"] + places, [name, "--", option] + places, [name, "--"] + places + [option, "1"]]
    cases += [["self", number] for number in NUMBERS + ["1", "2000", "2001", "002000"]]
    cases += [["site", query] + [seed] for query in QUERIES for seed in SEEDS + NO_SEEDS]
    cases += [["site", "q"] + [SEED] * count for count in (1000, 1001)] + [["web", "q"] + [SEED] * 999 + ["x"]]
    return cases


def some_value(r, option, is_good):
    if option == "--via":
        return r.choice(VIAS[:3] if is_good else VIAS)
    if option == "--criterion":
        return r.choice(CRITERIA[:3] if is_good else CRITERIA)
    low, high = RANGES[option]
    return r.choice([str(low), str(high), "%09d" % high, str(r.randint(low, high))] + ([] if is_good else [str(high + 1)] + NUMBERS))


def some_words(r):
    name = r.choice(["site", "site", "web", "web", "web", "self"])
    is_good = r.random() < .6
    options = [o for o in OPTIONS["web" if r.random() < .05 else name] if r.random() < .4]
    options += [r.choice(options)] if options and r.random() < .05 else []
    r.shuffle(options)
    parts = [[o, v] if r.random() < .6 else [o + "=" + v] for o in options for v in [some_value(r, o, is_good or r.random() < .7)]]
    seeds = [[r.choice(SEEDS if is_good or r.random() < .8 else NO_SEEDS)] for _ in range(r.choice([1, 1, 2, 3, 5]))]
    places = [[r.choice(["1", "0300", "2000"] if is_good else NUMBERS)]] if name == "self" else [[r.choice(QUERIES)]] + seeds
    for place in places[:-1] if r.random() < .06 else places:
        parts.insert(r.randint(0, len(parts)), place)
    if r.random() < .12:
        parts.insert(r.randint(0, len(parts)), [r.choice(STRAY)])
    words = [name] + [word for part in parts for word in part]
    if r.random() < .03:
        r.shuffle(words)
    return words


def cases(seed, count):
    r = random.Random("words/%d" % seed)
    listed = edges()
    listed += [some_words(r) for _ in range(count - len(listed))]
    return [(" ".join(map(shown, words)), answer(words)) for words in listed]
