"""Joins of tables of n rows by an equality of columns, and rows by their key: what is made first, and the query."""


def table(name, n, value):
    rows = ",".join(f"({i},{value(i)})" for i in range(n))
    return f"CREATE TABLE {name} (k INTEGER PRIMARY KEY, a INTEGER);\nINSERT INTO {name} VALUES {rows};\n"


def two_tables(n):
    """Each row of one meets one of the other."""
    return table("t", n, lambda i: i * 7919 % n) + table("u", n, lambda i: i * 4801 % n)


def half_met(n):
    """Every second row of one meets one of the other."""
    return table("t", n, lambda i: i * 7919 % n) + table("u", n, lambda i: 2 * i)


def three_tables(n):
    return two_tables(n) + table("v", n, lambda i: i)


JOINS = [
    ("join", two_tables, "SELECT t.k, u.k FROM t JOIN u ON t.a = u.a;\n"),
    ("LEFT JOIN", half_met, "SELECT t.k, u.k FROM t LEFT JOIN u ON t.a = u.a;\n"),
    ("chain of three tables", three_tables, "SELECT t.k, v.k FROM t JOIN u ON t.a = u.k JOIN v ON u.a = v.k;\n"),
    ("chain of commas", three_tables, "SELECT t.k, v.k FROM t, u, v WHERE t.a = u.k AND u.a = v.k;\n"),
]

BY_KEY = [
    ("the row of a key", 20_000, "SELECT k, a FROM t WHERE k = 4711;\n"),
    ("a range of 1,000 keys", 1_000, "SELECT k, a FROM t WHERE k >= 4000 AND k < 5000;\n"),
]
