"""Compares the program `vectors` with an oracle's cases of one kind.

    python3 compare_vectors.py PROGRAM KIND SEED COUNT      (LTQ_ORACLE names the oracle's folder)
"""
import json
import os
import subprocess
import sys


def shown(text):
    """A field: plain where its characters are all printable ASCII, else in hexadecimal."""
    if all("!" <= c <= "~" for c in text):
        return "=" + text
    return "x" + text.encode("utf-8").hex()


def optional(text):
    return "none" if text is None else shown(text)


def link_text(link):
    return "none" if link is None else "%s %s %s %d %s" % (shown(link[0]), link[1], shown(link[2]), link[3], shown(link[4]))


def link_case(v):
    return "%s %s" % (shown(v["base"]), shown(v["text"])), "%s; %s" % (link_text(v["link"]), link_text(v["join"]))


def iri_case(v):
    parts = v["split"]
    split = "%s %s %s %s %s" % (optional(parts[0]), optional(parts[1]), shown(parts[2]), optional(parts[3]), optional(parts[4]))
    check = "fine" if v["check"] is None else str(v["check"])
    resolved = "refused %d" % v["not_an_iri"] if "not_an_iri" in v else shown(v["resolve"])
    return "%s %s" % (shown(v["base"]), shown(v["text"])), "%s; %s; %s" % (split, check, resolved)


def tokens_case(v):
    return "x" + v["hex"], "".join("%s %d %d;" % tuple(token) for token in v["tokens"])


def document_case(v):
    """A document: its triples, each term in its N-Triples form, or its fault."""
    if "fault" in v:
        return "%s x%s" % (shown(v["doc"]), v["hex"]), "%s %d" % tuple(v["fault"])
    return "%s x%s" % (shown(v["doc"]), v["hex"]), "".join(" ".join(map(shown, triple)) + ";" for triple in v["triples"])


def query_tokens_case(v):
    return shown(v["text"]), "".join("%s %d %d;" % tuple(token) for token in v["tokens"])


def turtle_case(v):
    if "fault" in v:
        answer = "%s %d" % tuple(v["fault"])
    else:
        answer = shown("".join("%s %s %s .\n" % tuple(triple) for triple in v["triples"]))
    return "%s x%s" % (shown(v["doc"]), v["hex"]), answer


def site_case(v):
    return "x" + v["hex"], "bad %d" % v["bad"] if "bad" in v else "site x" + v["hex"]


def serve_case(v):
    return "x%s x%s" % (v["site"], v["request"]), "x" + v["response"]


def generated_case(v):
    return "%d %d" % (v["n"], v["step"]), "x" + v["hex"]


def heard_text(heard):
    if isinstance(heard, str):
        return heard
    fields = " ".join("none" if heard[k] is None else "x" + heard[k] for k in ("media", "coding", "location", "body"))
    return "%d %s" % (heard["status"], fields)


def fed_text(fed):
    return "more;" if fed in ("more", "undecided") else "done " + heard_text(fed["done"] if isinstance(fed, dict) and "done" in fed else fed)


def end_text(end):
    return "" if end is None else "cut" if end == "cut" else "end " + heard_text(end.get("done", end))


def message_case(v):
    """A message in one piece, and its end where that is not decided."""
    return "=%d x%s" % (v["limit"], v["hex"]), fed_text(v["read"]) + end_text(v.get("end"))


def pieces_case(v):
    """A message in pieces: what each gives, and the end."""
    places = "".join(" =%d" % cut for cut in v["cuts"])
    return "=%d x%s%s" % (v["limit"], v["hex"], places), "".join(map(fed_text, v["fed"])) + end_text(v["end"])


ESCAPES = {"\\": "\\", '"': '"', "n": "\n", "r": "\r", "t": "\t"}


def term_parts(text):
    """A term in its N-Triples form: its kind, its text, the number of a blank node or a literal's datatype, its tag."""
    if text.startswith("<"):
        fields = ["iri", text[1:-1], "", ""]
    elif text.startswith("_:b"):
        number, _, doc = text[3:].partition("x")
        fields = ["blank", bytes.fromhex(doc).decode("utf-8"), number, ""]
    else:
        lexical, i = "", 1
        while text[i] != '"':
            if text[i] == "\\":
                i += 1
                lexical += ESCAPES[text[i]]
            else:
                lexical += text[i]
            i += 1
        rest = text[i + 1:]
        if rest.startswith("@"):
            fields = ["literal", lexical, "http://www.w3.org/1999/02/22-rdf-syntax-ns#langString", rest[1:]]
        elif rest.startswith("^^"):
            fields = ["literal", lexical, rest[3:-1], ""]
        else:
            fields = ["literal", lexical, "http://www.w3.org/2001/XMLSchema#string", ""]
    return fields


def term_fields(text):
    return " ".join(shown(part) for part in term_parts(text))


def terms_case(v):
    row = "\n{\"v\":%s}" % v["json"]
    return term_fields(v["ntriples"]), "%s %s" % (shown(v["ntriples"]), shown(row))


def truth(value):
    return "none" if value is None else "true" if value else "false"


def computed(text):
    """A computed number: its value times 10 to the 18th, and whether it is whole."""
    if text is None:
        return "none"
    lexical = text[1:text.index('"', 1)]
    sign, digits = (-1, lexical[1:]) if lexical.startswith("-") else (1, lexical)
    whole, _, part = digits.partition(".")
    return "%d %s" % (sign * int(whole + part.ljust(18, "0")[:18]), truth("integer" in text))


def values_case(v):
    order = {-1: "less", 0: "equal", 1: "greater"}[v["order"]]
    literal, sums = "no literal", "no numbers"
    if "lexical" in v:
        number = "none" if v["number"] is None else "%s %s" % (v["number"]["scaled"], truth(v["number"]["whole"]))
        literal = "%s %s %s" % (truth(v["well_formed"]), truth(v["boolean"]), number)
    if "add" in v:
        sums = "%s, %s" % (computed(v["add"]), computed(v["sub"]))
    pair = "%s %s %s %s" % (truth(v["ebv_a"]), truth(v["equal"]), truth(v["less"]), order)
    return "%s %s" % (term_fields(v["a"]), term_fields(v["b"])), "%s; %s; %s" % (pair, literal, sums)


def term_words(text):
    """The words that make a constant of a term in its N-Triples form."""
    kind, lexical, more, tag = term_parts(text)
    if kind == "iri":
        return [shown(lexical), "iri"]
    if kind == "blank":
        return [shown(lexical), "blank:" + more]
    if tag:
        return [shown(lexical), shown(tag), "tagged"]
    return [shown(lexical), shown(more), "literal"]


COMPARISONS = {"=": "eq", "!=": "ne", "<": "lt", "<=": "le", ">": "gt", ">=": "ge"}
CALLS = {"isiri": "isIRI", "isblank": "isBlank", "isliteral": "isLiteral"}
SIGNS = {"+": "plus", "-": "minus"}


def expression_words(e, write_term):
    """The words of an expression: operands before what takes them."""
    def all_words(parts):
        return [word for part in parts for word in expression_words(part, write_term)]
    kind = e[0]
    if kind == "const":
        return term_words(write_term(e[1]))
    if kind in ("var", "bound"):
        return ["%s:%d" % (kind, e[1])]
    if kind in ("or", "and"):
        return all_words(e[1]) + ["%s:%d" % (kind, len(e[1]))]
    if kind == "sum":
        return all_words([e[1]] + [x for _, x in e[2]]) + ["sum:" + "".join(sign for sign, _ in e[2])]
    if kind == "cmp":
        return all_words(e[2:]) + [COMPARISONS[e[1]]]
    if kind == "same":
        return all_words(e[1:]) + ["sameTerm"]
    if kind == "signed":
        return all_words(e[2:]) + [SIGNS[e[1]]]
    if kind == "call":
        return all_words(e[2:]) + [CALLS.get(e[1], e[1])]
    return all_words(e[1:]) + ["not"]


def expressions_case(v):
    """An expression over two terms; the oracle reads it, and says what it comes to."""
    from ltq_oracle import sparql, terms, values
    query = sparql.read_query("SELECT ?x ?y ?u { FILTER (%s) }" % v["expr"])
    expression = query.body[1]
    x, y = (named_term(v[name], terms) for name in ("x", "y"))
    row = (x, y) + (None,) * (len(query.names) - 2)
    truth_text = {True: "true", False: "false", None: "error"}[values.truth(expression, row)]
    words = term_words(v["x"]) + ["bind"] + term_words(v["y"]) + ["bind"] + expression_words(expression, terms.write_term)
    return " ".join(words), "%s %s" % ("error" if v["value"] is None else shown(v["value"]), truth_text)


def named_term(text, terms):
    kind, lexical, more, tag = term_parts(text)
    if kind == "iri":
        return terms.iri(lexical)
    if kind == "blank":
        return terms.blank(lexical, int(more))
    return terms.literal(lexical, more, tag or None)


QUERY_SIGNS = {"+": "plus", "-": "minus"}


def query_expression(e):
    """The words of an expression, as the oracle's vectors have it: what takes operands before them."""
    kind = e[0]
    if kind == "const":
        return ["const", shown(e[1])]
    if kind == "var":
        return ["$%d" % e[1]]
    if kind == "bound":
        return ["bound.%d" % e[1]]
    if kind in ("or", "and"):
        return ["%s.%d" % (kind, len(e) - 1)] + [w for x in e[1:] for w in query_expression(x)]
    if kind == "sum":
        rest = [w for sign, x in e[2:] for w in [QUERY_SIGNS[sign]] + query_expression(x)]
        return ["sum"] + query_expression(e[1]) + rest + ["end"]
    if kind == "cmp":
        return [COMPARISONS[e[1]]] + query_expression(e[2]) + query_expression(e[3])
    if kind == "same":
        return ["same"] + query_expression(e[1]) + query_expression(e[2])
    if kind == "signed":
        return [QUERY_SIGNS[e[1]]] + query_expression(e[2])
    if kind == "call":
        return [CALLS.get(e[1], e[1])] + query_expression(e[2])
    return ["not"] + query_expression(e[1])


def query_algebra(a):
    if a[0] == "bgp":
        spots = [["pattern"] + ["?%d" % s["var"] if isinstance(s, dict) else shown(s) for s in p] for p in a[1:]]
        return ["bgp.%d" % (len(a) - 1)] + [w for p in spots for w in p]
    if a[0] == "filter":
        return ["filter"] + query_expression(a[1]) + query_algebra(a[2])
    if a[0] == "leftjoin":
        return ["optional"] + query_algebra(a[1]) + query_algebra(a[2]) + query_expression(a[3])
    return [a[0]] + query_algebra(a[1]) + query_algebra(a[2])


def query_case(v):
    """A query as it is read without parts of the answer (no LIMIT and OFFSET), or its fault."""
    from ltq_oracle import sparql
    from unit_vectors import query_json
    try:
        q = query_json(sparql.read_query(v["text"], slices=False))
    except sparql.QueryFault as e:
        return shown(v["text"]), "%s %d" % (e.why, e.at)
    words = [w for name in q["names"] for w in ("name", shown(name))] + ["width.%d" % q["width"]]
    words += ["select.%d" % n for n in q["select"]] + ["distinct"] * q["distinct"] + query_algebra(q["body"])
    words += [w for e, descending in q["order"] for w in ["desc" if descending else "asc"] + query_expression(e)]
    return shown(v["text"]), " ".join(words)


def cell_text(cell):
    return "-" if cell is None else shown(cell)


def join_case(v):
    """A join that grows: what each step of a node gives, and the numbers of its rows."""
    steps, answer = [], ""
    for step in v["steps"]:
        for side in ("left", "right"):
            if side in step:
                steps.append(" ".join([side] + [cell_text(c) for c in step[side]]))
                answer += "".join("(%s)" % " ".join(map(cell_text, row)) for row in step["out"])
        if "shorten" in step:
            steps.append("shorten %d %d" % tuple(step["shorten"]))
        answer += "%d %d;" % tuple(step["lens"])
    return "%d;%s" % (v["width"], ";".join(steps)), answer


def join_orders():
    """Six rows fed in every order, three to each side: with and without unbound places."""
    from itertools import permutations
    from ltq_oracle import algebra
    rows = [("left", ("1", "2", None)), ("left", ("1", None, None)), ("left", ("3", "2", None)),
            ("right", (None, "2", "5")), ("right", (None, None, "6")), ("right", ("1", "2", "5"))]
    cases = []
    for order in permutations(rows):
        sides, steps = {"left": [], "right": []}, []
        for side, row in order:
            left = side == "left"
            met = [b for b in sides["right" if left else "left"] if algebra.compatible(row, b)]
            sides[side].append(row)
            out = [algebra.merge(row, b) if left else algebra.merge(b, row) for b in met]
            steps.append({side: row, "out": out, "lens": [len(sides["left"]), len(sides["right"])]})
        cases.append(join_case({"width": 3, "steps": steps}))
    return cases


def digits(text):
    return "x" + text.encode("utf-8").hex()


def algebra_term(text):
    """A term as the words of the module `algebra_case` have it."""
    kind, lexical, more, tag = term_parts(text)
    parts = {"iri": [lexical], "blank": [lexical, more], "literal": [lexical, more, tag]}[kind]
    return " ".join([kind] + [shown(part) for part in parts])


def criteria_case(v):
    """Patterns and triples: for each criterion a digit for each triple, and the links."""
    spots = [" ".join("?%d" % s["var"] if isinstance(s, dict) else algebra_term(s) for s in p) for p in v["patterns"]]
    words = ["width.4 |", "bgp.%d" % len(spots)] + ["pattern " + p for p in spots] + ["|"]
    words += ["triple " + " ".join(map(algebra_term, t)) for t in v["triples"]]
    answers = []
    for criterion in ("all", "none", "match"):
        selected = "".join("1" if s else "0" for s in v["selects"][criterion])
        answers.append("=%s links%s" % (selected, "".join(" " + shown(link[0]) for link in v["links_of"][criterion])))
    return " ".join(words), "; ".join(answers)


def rows_case(v):
    """A query's text and rows: the head, each row, and the tail."""
    case = digits(v["query"])
    for row in v["rows"]:
        cells = ["-" if c is None else " ".join(map(digits, term_parts(c))) for c in row["cells"]]
        case += "|" + ";".join(["first" if row["first"] else "next"] + cells)
    return case, " ".join(digits(text) for text in [v["head"]] + [row["text"] for row in v["rows"]] + [v["tail"]])


def found_words(found):
    kind, what = next(iter(found.items()))
    if kind == "document":
        return "document"
    if kind == "moved":
        return "moved;" + digits(what[0])
    return "%s;%s;%d" % (kind, what[0], what[1] or 0)


def report_case(v):
    """A status, and the record where there is one: the text of the report."""
    status = v["status"]
    case = " ".join([status["name"]] + [str(status[k]) for k in ("at", "why") if k in status])
    if v["record"] is not None:
        parts = ["record"] + ["entry;%s;%s" % (digits(link), found_words(found)) for link, found in v["record"]["entries"]]
        case = "|".join([case] + parts + ["queued;" + digits(link) for link in v["record"]["queued"]])
    return case, digits(v["text"])


KINDS = {"link": link_case, "iri": iri_case, "site": site_case, "generated": generated_case, "criteria": criteria_case, "rows": rows_case, "report": report_case, "serve": serve_case, "turtle_tokens": tokens_case, "turtle": turtle_case, "ntriples": document_case, "terms": terms_case,
         "values": values_case, "expressions": expressions_case, "sparql_tokens": query_tokens_case, "sparql": query_case, "http": message_case, "http_pieces": pieces_case, "join": join_case}

# A kind whose cases the program knows by another kind's name.
PROGRAM_KINDS = {"join_orders": "join"}

# A kind whose cases the oracle gives with those of another kind.
SOURCES = {"expressions": "values"}


# A status that no command has yet, so that its cases are left out.
NOT_BUILT = ("network",)


def is_built(v):
    return v.get("kind") != "report" or v["status"]["name"] not in NOT_BUILT


# Kinds of queries: what the oracle cannot make a text of is left out.
QUERY_KINDS = ("sparql", "sparql_tokens")


def query_cases(kind, seed, count):
    import fuzz
    import random
    import unit_vectors as U
    cases, made = [], getattr(U, "kind_" + kind)
    features = [f for f in fuzz.features_of(fuzz.STAGE_ORDER[-1]) if f != "body"]
    for i in range(2 * count):
        g = U.Gen(random.Random("%s/%d/%d" % (kind, seed, i)), features)
        g.prefixes, g.base_dir, g.size = {}, "http://a.test/", 5
        try:
            cases.append(KINDS[kind](made(g)))
        except U.ReadFault:
            pass
        if len(cases) == count:
            break
    return cases


def cases_of(kind, seed, count):
    if kind in QUERY_KINDS:
        return query_cases(kind, int(seed), int(count))
    if kind == "join_orders":
        return join_orders()
    if kind == "algebra":
        from algebra_vectors import cases
        return cases(int(seed), int(count))
    if kind == "words":
        from words_vectors import cases
        return cases(int(seed), int(count))
    more = str(2 * int(count)) if kind == "report" else count
    made = subprocess.run([sys.executable, "unit_vectors.py", "--kind", SOURCES.get(kind, kind), "--seed", seed, "--count", more],
                          cwd=os.environ["LTQ_ORACLE"], stdout=subprocess.PIPE, check=True)
    vectors = [json.loads(line) for line in made.stdout.decode("utf-8").splitlines()]
    return [KINDS[kind](v) for v in vectors if is_built(v)][:int(count)]


def main():
    program, kind, seed, count = sys.argv[1:5]
    sys.path.insert(0, os.environ["LTQ_ORACLE"])
    sys.setrecursionlimit(20000)
    cases = cases_of(kind, seed, count)
    if len(cases) < int(count):
        print("vectors %s: the oracle gave %d cases of %s" % (kind, len(cases), count))
        return 1
    ran = subprocess.run([program, PROGRAM_KINDS.get(kind, kind)], input="".join(c[0] + "\n" for c in cases).encode("utf-8"), stdout=subprocess.PIPE)
    answers = ran.stdout.decode("utf-8").splitlines()
    if ran.returncode != 0 or len(answers) != len(cases):
        print("vectors %s: status %d, %d answers to %d cases" % (kind, ran.returncode, len(answers), len(cases)))
        return 1
    differ = [(case, wanted, answer) for (case, wanted), answer in zip(cases, answers) if wanted != answer]
    for case, wanted, answer in differ[:3]:
        print("case   %s\nwanted %s\nanswer %s" % (case, wanted, answer))
    print("vectors %s: %d agree, %d differ" % (kind, len(cases) - len(differ), len(differ)))
    return 1 if differ else 0


if __name__ == "__main__":
    sys.exit(main())
