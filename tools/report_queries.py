"""The language and the meaning of queries, as tools/check_report reads them: docs/language.md in plain Python.

`read_line` says who asks for what in a line, or at which byte it leaves the language; `answer` is the records of a query over rows,
`keeps` whether a condition keeps a row, and `excluded` whether the storage index of a unit shows that none of its rows is kept. Texts are
strings with one character a byte. A statement is a tuple: its first word, what it says, and the uses of columns in the order of the text.
"""
import collections
import re

KEYWORDS = frozenset("""ADD ALTER AND AS ASC BEGIN BETWEEN BLOCK BY CANCEL CLOSE COMMIT COMMITTED COUNT CREATE CRITICAL DEFAULT DELETE DESC
    EVICT EXPLAIN EXTENT FETCH FOR FROM GROUP HIGH IN INMEMORY INSERT INTEGER INTO IS ISOLATION LEVEL LOW MAX MEDIUM MEMCOMPRESS MIN NO NONE
    NOT NULL NUMBER OF ONLY OPEN OR ORDER PRIORITY PURGE QUERY READ ROLLBACK RUN SCN SELECT SERIALIZABLE SET STEP SUM SWITCH TABLE
    TRANSACTION TRICKLE UPDATE VALUES VARCHAR2 WHERE""".split())
TOKEN = re.compile(r"""(?P<blank>[ \t\r]+|--.*)|(?P<word>[A-Za-z][A-Za-z0-9_$#]*)|(?P<number>-?[0-9]+)|(?P<text>'(?:[^']|'')*'(?!'))
    |(?P<sign><>|!=|<=|>=|[(),*=<>])|(?P<end>;)""", re.X | re.S)


class Bad(Exception):
    """The byte at which a line of the script leaves the language."""


# ---- a line


def tokens(line, start):
    found, at = [], start
    while at < len(line):
        token = TOKEN.match(line, at)
        kind, word = (token.lastgroup, token.group()) if token else ("", "")
        if kind == "number":
            digits = word.lstrip("-").lstrip("0")
            value = int(("-" if word[0] == "-" else "") + (digits or "0")) if len(digits) < 20 else 1 << 64
            good = -1 << 63 <= value < 1 << 63
        elif kind == "text":
            value, good = word[1:-1].replace("''", "'") or None, True
        elif kind == "end":
            value, good = word, re.match(r"[ \t\r]*(--.*)?$", line[token.end() :], re.S)
        else:
            value, good = word.upper().replace("!=", "<>"), kind != "" and (kind != "word" or len(word) <= 128)
        if not good:
            raise Bad(at + 1)
        if kind not in ("blank", "end"):
            found.append((kind, value, at + 1))
        at = token.end()
    return found + [("", None, len(line) + 1)]


class Parser:
    """Reads tokens as a statement; what it names stands in `uses`, in the order of the text."""

    def __init__(self, found):
        self.found, self.at, self.uses = found, 0, []

    def next(self):
        return self.found[self.at][:2]

    def has(self, *words):
        if self.next()[0] in ("word", "sign") and self.next()[1] in words:
            self.at += 1
            return self.found[self.at - 1][1]
        return None

    def need(self, *words):
        return self.has(*words) or self.fail()

    def fail(self):
        raise Bad(self.found[self.at][2])

    def take(self, good):
        if not good:
            self.fail()
        self.at += 1
        return self.found[self.at - 1][1]

    def name(self):
        return self.take(self.next()[0] == "word" and self.next()[1] not in KEYWORDS)

    def column(self, once=None):
        name = self.name()
        self.uses.append(("column", name, once))
        return name

    def number(self, least, most):
        return self.take(self.next()[0] == "number" and least <= self.next()[1] <= most)

    def value(self):
        return None if self.has("NULL") else self.take(self.next()[0] in ("number", "text"))

    def fitting(self, column, strict=False):
        value = self.value()
        self.uses.append(("fit", column, value, strict))
        return value

    def listed(self, part):
        parts = [part()]
        while self.has(","):
            parts.append(part())
        return parts

    def in_parentheses(self, part):
        self.need("(")
        parts = self.listed(part)
        self.need(")")
        return parts

    def whole(self, side):
        word = self.take(self.next()[0] == "word" and self.next()[1] in side)
        statement = (word,) + side[word](self)
        self.take(self.next()[0] == "")
        return statement + (self.uses,)

    def plain(self):
        return ()

    def create(self):
        self.need("TABLE")
        name, columns = self.name(), []
        self.need("(")
        while True:
            columns.append(self.sized())
            if self.has(")"):
                break
            if len(columns) == 16:
                self.fail()
            self.need(",")
        block = self.number(1, 64) if self.has("BLOCK") else 32
        extent = self.number(1, 64) if self.has("EXTENT") else 64
        return name, columns, block, extent, self.memory() if self.has("INMEMORY") else None

    def sized(self):
        column = self.column("created")
        if self.need("NUMBER", "INTEGER", "VARCHAR2") != "VARCHAR2":
            return column, 0
        self.need("(")
        size = self.number(1, 255)
        self.need(")")
        return column, size

    def memory(self):
        if self.has("MEMCOMPRESS"):
            [self.need(word) for word in ("FOR", "QUERY", "LOW")]
        return self.need("CRITICAL", "HIGH", "MEDIUM", "LOW", "NONE").lower() if self.has("PRIORITY") else "none"

    def alter(self):
        self.need("TABLE")
        name = self.name()
        word = self.need("ADD", "INMEMORY", "NO")
        if word == "ADD":
            return (name, "add") + self.added()
        if word == "INMEMORY":
            return name, self.memory()
        self.need("INMEMORY")
        return name, "off"

    def added(self):
        self.need("(")
        column = self.sized()
        default = self.value() if self.has("DEFAULT") else None
        self.need(")")
        return column, default

    def insert(self):
        self.need("INTO")
        name = self.name()
        columns = self.in_parentheses(lambda: self.column("listed")) if self.next()[1] == "(" else None
        self.need("VALUES")
        return name, columns, self.listed(lambda: self.in_parentheses(self.value))

    def update(self):
        name = self.name()
        self.need("SET")
        return name, dict(self.listed(self.setting)), self.where()

    def setting(self):
        column = self.column("set")
        self.need("=")
        return column, self.fitting(column, True)

    def delete(self):
        self.need("FROM")
        return self.name(), None, self.where()

    def where(self):
        return self.condition(0) if self.has("WHERE") else None

    def condition(self, depth):
        either = [self.terms(depth)]
        while self.has("OR"):
            either.append(self.terms(depth))
        return either

    def terms(self, depth):
        both = [self.term(depth)]
        while self.has("AND"):
            both.append(self.term(depth))
        return both

    def term(self, depth):
        if self.next()[1] in ("NOT", "(") and self.next()[0] != "text":
            if depth == 64:
                self.fail()
            if self.has("NOT"):
                return ("not", self.term(depth + 1))
            self.need("(")
            inner = self.condition(depth + 1)
            self.need(")")
            return ("inner", inner)
        column = self.column()
        test = self.need("=", "<>", "<", "<=", ">", ">=", "IS", "NOT", "BETWEEN", "IN")
        if test == "IS":
            negated = self.has("NOT")
            self.need("NULL")
            return ("NOT NULL" if negated else "NULL", column)
        if test == "NOT":
            return ("not", self.ranged(column, self.need("BETWEEN", "IN")))
        return self.ranged(column, test) if test in ("BETWEEN", "IN") else (test, column, self.fitting(column))

    def ranged(self, column, test):
        if test == "IN":
            return ("IN", column, self.in_parentheses(lambda: self.fitting(column)))
        least = self.fitting(column)
        self.need("AND")
        return ("BETWEEN", column, least, self.fitting(column))

    def item(self):
        function = self.has("COUNT", "SUM", "MIN", "MAX")
        if not function:
            return ("", self.column())
        self.need("(")
        column = "*" if function == "COUNT" and self.has("*") else self.column()
        if function == "SUM":
            self.uses.append(("sum", column))
        self.need(")")
        return (function, column)

    def key(self):
        return (self.item(), (self.has("ASC", "DESC") or "ASC") == "DESC")

    def query(self):
        items = None if self.has("*") else self.listed(self.item)
        self.need("FROM")
        name, scn, condition = self.name(), self.scn(), self.where()
        groups = self.listed(self.column) if self.has("GROUP") and self.need("BY") else None
        keys = self.listed(self.key) if self.has("ORDER") and self.need("BY") else []
        return name, items, condition, groups, keys, scn

    def scn(self):
        if not self.has("AS"):
            return None
        self.need("OF")
        self.need("SCN")
        return self.number(0, (1 << 63) - 1)

    def explain(self):
        self.need("SELECT")
        return self.query()

    def opening(self):
        cursor = self.number(1, 999)
        self.need("FOR")
        self.need("SELECT")
        return self.query() + (cursor,)

    def cursor(self):
        return (self.number(1, 999),)

    def mode(self):
        self.need("TRANSACTION")
        if self.need("READ", "ISOLATION") == "READ":
            self.need("ONLY")
            return ("readonly",)
        self.need("LEVEL")
        if self.need("SERIALIZABLE", "READ") == "SERIALIZABLE":
            return ("serializable",)
        self.need("COMMITTED")
        return ("committed",)


SESSION = {"CREATE": Parser.create, "ALTER": Parser.alter, "INSERT": Parser.insert, "UPDATE": Parser.update, "DELETE": Parser.delete,
           "SELECT": Parser.query, "EXPLAIN": Parser.explain, "OPEN": Parser.opening, "STEP": Parser.cursor, "FETCH": Parser.cursor,
           "CLOSE": Parser.cursor, "SET": Parser.mode, "COMMIT": Parser.plain, "ROLLBACK": Parser.plain}
BACKGROUND = {"RUN": Parser.plain, "BEGIN": Parser.plain, "SWITCH": Parser.plain, "CANCEL": Parser.plain, "PURGE": Parser.plain,
              "TRICKLE": lambda p: (p.number(1, 1000000),), "EVICT": lambda p: (p.name(), p.number(0, 4294967295))}


def read_line(line):
    """Who asks, for what, and the first byte that is not blank. Who is None for a line without a session or background: then what is
    None for a blank one or a comment, "race" at the end of a prelude, or else the fields of its error. What is Bad where it is broken."""
    begin = len(line) - len(line.lstrip(" \t\r"))
    if len(line) > 1048576:
        return None, ["02", "line-too-long", str(len(line))], begin + 1
    if begin == len(line) or line.startswith("--", begin):
        return None, None, begin + 1
    if line.strip(" \t\r") == "race>":
        return None, "race", begin + 1
    prefix = re.compile("(bg|[1-9]|1[0-6])>").match(line, begin)
    if not prefix:
        return None, ["01", "syntax", str(begin + 1)], begin + 1
    who = 0 if prefix.group(1) == "bg" else int(prefix.group(1))
    try:
        return who, Parser(tokens(line, prefix.end())).whole(SESSION if who else BACKGROUND), begin + 1
    except Bad as bad:
        return who, bad, begin + 1


# ---- what a condition and a query mean


def compared(test, left, right):
    """No is 0, Unknown 1 and Yes 2."""
    if left is None or right is None:
        return 1
    return 2 * {"=": left == right, "<>": left != right, "<": left < right, "<=": left <= right, ">": left > right, ">=": left >= right}[test]


def truth(term, row):
    test, column = term[:2]
    if test == "not":
        return 2 - truth(column, row)
    if test == "inner":
        return max(min(truth(t, row) for t in terms) for terms in column)
    if test == "NULL":
        return 2 * (row[column] is None)
    if test == "NOT NULL":
        return 2 * (row[column] is not None)
    if test == "BETWEEN":
        return min(compared(">=", row[column], term[2]), compared("<=", row[column], term[3]))
    if test == "IN":
        return max(compared("=", row[column], value) for value in term[2])
    return compared(test, row[column], term[2])


def keeps(condition, row):
    return condition is None or truth(("inner", condition), row) == 2


def excluded(condition, bounds):
    """Whether the storage index alone shows that no row of the unit meets the condition."""
    return condition is not None and len(condition) == 1 and any(term_excluded(term, bounds) for term in condition[0])


def term_excluded(term, bounds):
    test, column = term[:2]
    if test in ("not", "inner"):
        return False
    if column not in bounds:
        return False
    least, most, nulls, count = bounds[column]
    if test in ("NULL", "NOT NULL"):
        return nulls == (0 if test == "NULL" else count)
    if test == "IN":
        return all(term_excluded(("=", column, value), bounds) for value in term[2])
    if test == "BETWEEN":
        return term_excluded((">=", column, term[2]), bounds) or term_excluded(("<=", column, term[3]), bounds)
    value = term[2]
    if value is None or least is None:
        return True
    return {"=": not least <= value <= most, "<>": least == value == most, "<": least >= value, "<=": least > value, ">": most <= value,
            ">=": most < value}[test]


def order(value):
    return (value is None, value if value is not None else 0)


def item_of(item, rows):
    function, column = item
    if column == "*":
        return len(rows)
    if function == "":
        return rows[0][column]
    values = [row[column] for row in rows if row[column] is not None]
    return len(values) if function == "COUNT" else {"SUM": sum, "MIN": min, "MAX": max}[function](values) if values else None


def answer(statement, columns, rows):
    """The records of a query over rows, which are maps from the names of columns."""
    items, condition, groups, keys = statement[2:6]
    kept = [row for row in rows if keeps(condition, row)]
    if groups is None and not any(item[0] for item in (items or []) + [key[0] for key in keys]):
        records = [[row] for row in kept]
    else:
        parted = collections.defaultdict(list)
        for row in kept:
            parted[tuple(order(row[column]) for column in groups or [])].append(row)
        records = [parted[key] for key in sorted(parted)] if groups else [kept]
    for item, descends in reversed(keys):
        records.sort(key=lambda record: order(item_of(item, record)), reverse=descends)
    return [[item_of(item, record) for item in items or [("", name) for name, _ in columns]] for record in records]


def text(value):
    return "" if value is None else str(value)
