"""Cases of the algebra for the program `vectors`, and their answers by an oracle.

    python3 algebra_vectors.py answers < CASES       the answer of each case
    python3 algebra_vectors.py cases SEED COUNT      random cases

LTQ_ORACLE names the oracle's folder. crates/vectors/src/algebra_case.rt has the form of a case.
"""
import os
import random
import sys

sys.path.insert(0, os.environ["LTQ_ORACLE"])
from ltq_oracle import algebra as A, terms as T, values as V  # noqa: E402

XSD = "http://www.w3.org/2001/XMLSchema#"
COMPARE = {"eq": "=", "ne": "!=", "lt": "<", "le": "<=", "gt": ">", "ge": ">="}
CALLS = {"str": "str", "lang": "lang", "datatype": "datatype", "isIRI": "isiri", "isBlank": "isblank", "isLiteral": "isliteral"}


def shown(text):
    return "=" + text if all("!" <= c <= "~" for c in text) else "x" + text.encode("utf-8").hex()


# ---- reading a case, from its first token on

class Case:
    def __init__(self, line):
        self.tokens, self.query, self.triples, self.body = line.split(" "), A.Query(), [], None
        while self.tokens:
            self.item(self.tokens.pop(0))
        self.query.body = self.body

    def item(self, token):
        word, _, argument = token.partition(".")
        query = self.query
        if word == "name":
            query.names.append(self.field())
        elif word == "width":
            query.width = int(argument)
        elif word == "select":
            query.select.append(int(argument))
        elif word == "distinct":
            query.distinct = True
        elif word in ("asc", "desc"):
            query.order.append((self.expr(), word == "desc"))
        elif word == "triple":
            self.triples.append((self.spot(), self.spot(), self.spot()))
        elif word != "|":
            self.tokens.insert(0, token)
            self.body = self.algebra()

    def field(self):
        token = self.tokens.pop(0)
        return token[1:] if token[0] == "=" else bytes.fromhex(token[1:]).decode("utf-8")

    def spot(self):
        token = self.tokens.pop(0)
        if token[0] == "?":
            return ("var", int(token[1:]))
        if token[0] == "<":
            return T.iri(token[1:-1])
        if token[0] == '"':
            form, _, rest = token[1:].rpartition('"')
            if not rest:
                return T.literal(form)
            if rest[0] == "@":
                return T.literal(form, T.LANG_STRING, rest[1:])
            return T.literal(form, XSD + rest[6:] if rest.startswith("^^xsd:") else rest[3:-1])
        if token == "iri":
            return T.iri(self.field())
        if token == "blank":
            return T.blank(self.field(), int(self.field()))
        form, datatype, tag = self.field(), self.field(), self.field()
        return T.literal(form, datatype, tag or None)

    def expr(self):
        token = self.tokens.pop(0)
        word, _, argument = token.partition(".")
        if token[0] == "$":
            return ("var", int(token[1:]))
        if word in COMPARE:
            return ("cmp", COMPARE[word], self.expr(), self.expr())
        if word in CALLS:
            return ("call", CALLS[word], self.expr())
        if word in ("or", "and"):
            return (word, [self.expr() for _ in range(int(argument))])
        if word == "sum":
            first = self.expr()
            return ("sum", first, [(sign, self.expr()) for sign in argument])
        if word in ("plus", "minus"):
            return ("signed", "+" if word == "plus" else "-", self.expr())
        if word == "bound":
            return ("bound", int(argument))
        if word == "const":
            return ("const", self.spot())
        return ("not", self.expr()) if word == "not" else ("same", self.expr(), self.expr())

    def algebra(self):
        word, _, argument = self.tokens.pop(0).partition(".")
        if word == "bgp":
            return ("bgp", [self.pattern() for _ in range(int(argument))])
        if word == "filter":
            expr = self.expr()
            return ("filter", expr, self.algebra())
        left = self.algebra()
        right = self.algebra()
        return ("leftjoin", left, right, self.expr()) if word == "optional" else (word, left, right)

    def pattern(self):
        self.tokens.pop(0)
        return (self.spot(), self.spot(), self.spot())


# ---- answers

def term_text(term):
    return "-" if term is None else shown(T.write_term(term))


def spot_text(spot):
    return "?%d" % spot[1] if spot[0] == "var" else term_text(spot)


def answer(line):
    case = Case(line)
    rows = [" ".join(term_text(cell) for cell in row) for row in A.solutions(case.query, case.triples)]
    if not case.query.order:
        rows.sort()
    listed = "; ".join(" ".join(spot_text(spot) for spot in pattern) for pattern in A.patterns(case.query))
    return "%s [%s] %d [%s]" % ("true" if A.is_monotone(case.query) else "false", listed, len(rows), "; ".join(rows))


# ---- random cases

IRIS = ["<a>", "<b>", "<c>", "<p>", "<q>"]
LITERALS = ['"1"^^xsd:integer', '"01"^^xsd:integer', '"2"^^xsd:integer', '"1.0"^^xsd:decimal', '"-3"^^xsd:byte', '"x"^^xsd:integer', '"true"^^xsd:boolean',
            '"0"^^xsd:boolean', '"a"', '"b"', '""', '"a"@en', '"a"@de', '"1"', '"1"^^xsd:double', '"c"^^<t>', "literal x61c3a920 =t ="]
BLANKS = ["blank =d =0", "blank =d =1", "blank =e =0"]


class Random:
    def __init__(self, seed):
        self.r = random.Random(seed)

    def term(self):
        return self.r.choice(self.r.choice([IRIS, IRIS, LITERALS, BLANKS]))

    def triple(self):
        return "triple %s %s %s" % (self.r.choice(["<a>", "<b>", "<c>", "blank =d =0"]), self.r.choice(["<p>", "<q>"]), self.term())

    def spot(self, variables, constants):
        return "?%d" % self.r.randrange(variables) if self.r.random() < .8 else self.r.choice(constants)

    def pattern(self, variables):
        return "pattern %s %s %s" % (self.spot(variables, IRIS[:3]), self.r.choice(["<p>", "<q>", self.spot(variables, IRIS[3:])]),
                                     self.spot(variables, IRIS + LITERALS[:4]))

    def expr(self, names, depth):
        kind = self.r.choice(["var", "var", "const"] if depth == 0 else
                             ["var", "const", "or", "and", "not", "compare", "compare", "sum", "signed", "bound", "call", "same"])
        inner = lambda: self.expr(names, depth - 1)  # noqa: E731
        if kind == "var":
            return "$%d" % self.r.randrange(names)
        if kind == "const":
            return "const " + self.term()
        if kind in ("or", "and"):
            n = self.r.randint(2, 3)
            return "%s.%d %s" % (kind, n, " ".join(inner() for _ in range(n)))
        if kind == "sum":
            signs = "".join(self.r.choice("+-") for _ in range(self.r.randint(1, 2)))
            return "sum.%s %s" % (signs, " ".join(inner() for _ in range(len(signs) + 1)))
        if kind == "bound":
            return "bound.%d" % self.r.randrange(names)
        if kind == "compare":
            return "%s %s %s" % (self.r.choice(list(COMPARE)), inner(), inner())
        if kind == "same":
            return "same %s %s" % (inner(), inner())
        return "%s %s" % (self.r.choice({"not": ["not"], "signed": ["plus", "minus"], "call": list(CALLS)}[kind]), inner())

    def algebra(self, names, variables, depth):
        kind = self.r.choice(["bgp"] if depth == 0 else ["bgp", "join", "union", "filter", "optional", "optional"])
        inner = lambda: self.algebra(names, variables, depth - 1)  # noqa: E731
        if kind == "bgp":
            n = self.r.choice([0, 1, 1, 1, 2, 2, 3])
            return " ".join(["bgp.%d" % n] + [self.pattern(variables) for _ in range(n)])
        if kind == "filter":
            return "filter %s %s" % (self.expr(names, 2), inner())
        if kind == "optional":
            condition = 'const "true"^^xsd:boolean' if self.r.random() < .5 else self.expr(names, 2)
            return "optional %s %s %s" % (inner(), inner(), condition)
        return "%s %s %s" % (kind, inner(), inner())

    def case(self):
        while True:
            line = self.any_case()
            case = Case(line)
            rows = len(A.full_rows(case.query, case.triples))
            if 0 < rows <= 60 or rows == 0 and self.r.random() < .1:
                return line

    def any_case(self):
        names = self.r.randint(1, 4)
        variables = names + self.r.randint(0, 2)
        head = ["name =%s" % name for name in self.r.sample(["x", "y", "B", "a1", "aa", "b"], names)] + ["width.%d" % variables]
        head += ["select.%d" % var for var in self.r.sample(range(names), self.r.randint(1, names))]
        if self.r.random() < .3:
            head.append("distinct")
        if self.r.random() < .5:
            head += ["%s %s" % (self.r.choice(["asc", "desc"]), self.expr(names, self.r.choice([0, 0, 1]))) for _ in range(self.r.randint(1, 2))]
        graph = [self.triple() for _ in range(self.r.randint(1, 10))]
        graph += self.r.sample(graph, len(graph) // 3)
        return " | ".join([" ".join(head), self.algebra(names, variables, self.r.randint(0, 3)), " ".join(graph)]).rstrip(" |")


def cases(seed, count):
    made = Random(seed)
    return [(line, answer(line)) for line in (made.case() for _ in range(count))]


def main():
    if sys.argv[1] == "answers":
        for line in sys.stdin.read().splitlines():
            print(line if line.startswith("#") else answer(line))
    else:
        for line, _ in cases(int(sys.argv[2]), int(sys.argv[3])):
            print(line)


if __name__ == "__main__":
    sys.exit(main())
