"""The work of routines, for the program in SQL/PSM, for PostgreSQL in PL/pgSQL, and some of it for MariaDB in its own SQL/PSM: what is made
first, and the statement that is timed, both by a number n. A statement may be run several times over what was made."""

KEYED = 20_000  # rows of the table that is changed by its key
ASKED = 1_000  # rows of the tables that a query in a loop asks


def rows(n):
    values = ",".join(f"({i},{i % 97})" for i in range(n))
    return f"CREATE TABLE t (k INTEGER PRIMARY KEY, a INTEGER);\nINSERT INTO t VALUES {values};\n"


def two_tables(n):
    return rows(n) + "CREATE TABLE u (k INTEGER PRIMARY KEY, b INTEGER);\nINSERT INTO u SELECT k, k FROM t;\n"


def nothing(n):
    return ""


def empty_table(n):
    return "CREATE TABLE w (k INTEGER PRIMARY KEY, a INTEGER);\n"


def with_rows(text):
    return lambda n: rows(n) + text


def fixed(text):
    return lambda n: text


def loop(body, declared=""):
    """A loop of n rounds, each of which adds one to i."""
    return lambda n: f"BEGIN DECLARE i INTEGER DEFAULT 0; {declared}WHILE i < {n} DO {body} END WHILE; END;\n"


def pg_loop(body, declared="", first=""):
    return lambda n: f"DO $$ DECLARE i BIGINT := 0; {declared}BEGIN {first}WHILE i < {n} LOOP {body} END LOOP; END $$;\n"


def pg_routine(kind, head, body):
    return f"CREATE {kind} pg_temp.{head} LANGUAGE plpgsql AS $$ BEGIN {body} END $$;\n"


def pg_handled(name, body):
    """A function of x that gives 0 where its body raises."""
    return pg_routine("FUNCTION", f"{name} (x BIGINT) RETURNS BIGINT", f"{body} EXCEPTION WHEN OTHERS THEN RETURN 0;")


HANDLED = (
    "CREATE FUNCTION inv (x INTEGER) RETURNS INTEGER BEGIN DECLARE EXIT HANDLER FOR SQLEXCEPTION RETURN 0;\n"
    "RETURN 1 / x; END;\n"
)


def atomic_inserts(declared, last):
    """An ATOMIC block of n INSERTs, with what it declares and what it does last."""
    return lambda n: (
        f"BEGIN ATOMIC DECLARE i INTEGER DEFAULT 0; {declared}\n"
        f"WHILE i < {n} DO SET i = i + 1; INSERT INTO w VALUES (i, i); END WHILE; {last}END;\n"
    )


UNDONE = atomic_inserts("DECLARE UNDO HANDLER FOR SQLEXCEPTION BEGIN END;", "SIGNAL SQLSTATE '45000'; ")


def updates_by_key(n):
    return "".join(f"UPDATE t SET a = a + 1 WHERE k = {i * 7919 % KEYED};\n" for i in range(n))


class Work:
    """What is timed, how many rounds, calls or rows it has, and how it is written for each system, by its name. In a query of functions
    in form the bodies stand in a plan, and the same is timed row by row."""

    def __init__(self, name, n, made, statement, pg_made, pg_statement, maria=None, in_form=False):
        self.name = name
        self.n = n
        self.made = made
        self.statement = statement
        self.others = {"PostgreSQL": (pg_made, pg_statement)}
        if maria is not None:
            self.others["MariaDB"] = maria
        self.in_form = in_form


def valued(value):
    """A table of n rows of these values."""
    made = "CREATE TABLE t (k INTEGER PRIMARY KEY, a INTEGER);\n"
    return lambda n: made + "INSERT INTO t VALUES " + ",".join(f"({i},{value(i)})" for i in range(n)) + ";\n"


def called(name, value, function, body, pg_body, maria_body):
    """A function of x that is called for each of n rows of these values, by its body for each system."""
    filled = valued(value)
    ours = f"CREATE FUNCTION {function} (x INTEGER) RETURNS INTEGER BEGIN {body} END;\n"
    pg = pg_routine("FUNCTION", f"{function} (x BIGINT) RETURNS BIGINT", pg_body)
    maria = f"DELIMITER //\nCREATE FUNCTION {function} (x BIGINT) RETURNS BIGINT BEGIN {maria_body} END //\nDELIMITER ;\n"
    asked = fixed(f"SELECT SUM({function}(a)) FROM t;\n")
    return Work(
        f"rows of {name}",
        100_000,
        lambda n: filled(n) + ours,
        asked,
        lambda n: filled(n) + pg,
        fixed(f"SELECT SUM(pg_temp.{function}(a)) FROM t;\n"),
        maria=(lambda n: filled(n) + maria, asked),
        in_form=True,
    )


def handled(raising, value):
    """A function whose EXIT handler is taken where x is 0. MariaDB has no exception there, and is told to raise one."""
    return called(
        f"a function with an EXIT handler, of which {raising} raise",
        value,
        "safe",
        "DECLARE EXIT HANDLER FOR SQLSTATE '22012' RETURN -1; RETURN 100 / x;",
        "RETURN 100 / x; EXCEPTION WHEN division_by_zero THEN RETURN -1;",
        "DECLARE EXIT HANDLER FOR SQLSTATE '22012' RETURN -1; IF x = 0 THEN SIGNAL SQLSTATE '22012'; END IF; RETURN 100 DIV x;",
    )


STEPS = "DECLARE y {0} DEFAULT x; DECLARE z {0} DEFAULT 50; IF y > z THEN SET y = y - z; END IF; RETURN y;"
PG_STEPS = "DECLARE y BIGINT := x; z BIGINT := 50; BEGIN IF y > z THEN y := y - z; END IF; RETURN y; END;"

NESTED = (
    "DECLARE y {0} DEFAULT 1; DECLARE EXIT HANDLER FOR SQLEXCEPTION RETURN -1;\n"
    "BEGIN DECLARE CONTINUE HANDLER FOR SQLSTATE '22012' SET y = y + 1; DECLARE EXIT HANDLER FOR SQLSTATE '45000' SET y = y + 2;\n"
    "BEGIN DECLARE EXIT HANDLER FOR SQLSTATE '22018' SET y = 0; {1} IF x = 3 THEN SIGNAL SQLSTATE '45000'; END IF; SET y = y + x; END;\n"
    "SET y = y * 2; END; RETURN y;"
)
PG_NESTED = (
    "DECLARE y BIGINT := 1; BEGIN BEGIN BEGIN BEGIN y := 100 / x; EXCEPTION WHEN division_by_zero THEN y := y + 1; END;\n"
    "IF x = 3 THEN RAISE SQLSTATE '45000'; END IF; y := y + x; EXCEPTION WHEN SQLSTATE '22018' THEN y := 0; END;\n"
    "y := y * 2; EXCEPTION WHEN SQLSTATE '45000' THEN y := y + 2; END; RETURN y; EXCEPTION WHEN OTHERS THEN RETURN -1; END;"
)


ROUTINES = [
    Work("rounds of WHILE, with one SET", 1_000_000, nothing, loop("SET i = i + 1;"), nothing, pg_loop("i := i + 1;")),
    Work(
        "CALLs of a procedure with one SET",
        100_000,
        fixed("CREATE PROCEDURE p (IN x INTEGER, INOUT y INTEGER) SET y = x + 1;\n"),
        loop("CALL p(i, i);"),
        fixed(pg_routine("PROCEDURE", "p (x BIGINT, INOUT y BIGINT)", "y := x + 1;")),
        pg_loop("CALL pg_temp.p(i, i);"),
    ),
    Work(
        "INSERTs of one row, in a loop",
        10_000,
        empty_table,
        loop("SET i = i + 1; INSERT INTO w VALUES (i, i);", "DELETE FROM w; "),
        empty_table,
        pg_loop("i := i + 1; INSERT INTO w VALUES (i, i);", first="DELETE FROM w; "),
    ),
    Work(
        "recursions 24 deep",
        10_000,
        fixed("CREATE FUNCTION deep (n INTEGER) RETURNS INTEGER\nIF n <= 1 THEN RETURN 1; ELSE RETURN deep(n - 1) + 1; END IF;\n"),
        loop("SET i = i + deep(24) - 23;"),
        fixed(pg_routine("FUNCTION", "deep (n BIGINT) RETURNS BIGINT", "IF n <= 1 THEN RETURN 1; ELSE RETURN pg_temp.deep(n - 1) + 1; END IF;")),
        pg_loop("i := i + pg_temp.deep(24) - 23;"),
    ),
    Work(
        "rows of a function with IF",
        100_000,
        with_rows("CREATE FUNCTION g (x INTEGER) RETURNS INTEGER IF x < 50 THEN RETURN x; ELSE RETURN 100 - x; END IF;\n"),
        fixed("SELECT k, g(a) FROM t;\n"),
        with_rows(pg_routine("FUNCTION", "g (x BIGINT) RETURNS BIGINT IMMUTABLE", "IF x < 50 THEN RETURN x; ELSE RETURN 100 - x; END IF;")),
        fixed("SELECT k, pg_temp.g(a) FROM t;\n"),
    ),
    Work(
        "SIGNALs that a CONTINUE handler takes",
        100_000,
        nothing,
        loop(
            "SET i = i + 1; SIGNAL SQLSTATE '45000';",
            "DECLARE s VARCHAR(5); DECLARE CONTINUE HANDLER FOR SQLSTATE '45000'\nGET STACKED DIAGNOSTICS CONDITION 1 s = RETURNED_SQLSTATE; ",
        ),
        nothing,
        pg_loop(
            "i := i + 1; BEGIN RAISE SQLSTATE '45000'; EXCEPTION WHEN SQLSTATE '45000' THEN GET STACKED DIAGNOSTICS s = RETURNED_SQLSTATE; END;",
            "s TEXT; ",
        ),
    ),
    Work(
        "rows of a cursor",
        100_000,
        rows,
        fixed(
            "BEGIN DECLARE x, y, s INTEGER DEFAULT 0; DECLARE at_end BOOLEAN DEFAULT FALSE; DECLARE c CURSOR FOR SELECT k, a FROM t;\n"
            "DECLARE CONTINUE HANDLER FOR NOT FOUND SET at_end = TRUE; OPEN c; FETCH c INTO x, y;\n"
            "WHILE NOT at_end DO SET s = s + y; FETCH c INTO x, y; END WHILE; CLOSE c; END;\n"
        ),
        rows,
        fixed(
            "DO $$ DECLARE x BIGINT; y BIGINT; s BIGINT := 0; c CURSOR FOR SELECT k, a FROM t;\n"
            "BEGIN OPEN c; LOOP FETCH c INTO x, y; EXIT WHEN NOT FOUND; s := s + y; END LOOP; CLOSE c; END $$;\n"
        ),
    ),
    Work(
        "rows of FOR",
        100_000,
        rows,
        fixed("BEGIN DECLARE s INTEGER DEFAULT 0; FOR r AS SELECT k, a FROM t DO SET s = s + r.a; END FOR; END;\n"),
        rows,
        fixed("DO $$ DECLARE s BIGINT := 0; r RECORD; BEGIN FOR r IN SELECT k, a FROM t LOOP s := s + r.a; END LOOP; END $$;\n"),
    ),
    Work(
        "changes of an ATOMIC block that is undone",
        10_000,
        empty_table,
        UNDONE,
        empty_table,
        lambda n: f"DO $$ DECLARE i BIGINT := 0; BEGIN WHILE i < {n} LOOP i := i + 1; INSERT INTO w VALUES (i, i); END LOOP;\n"
        "RAISE SQLSTATE '45000'; EXCEPTION WHEN SQLSTATE '45000' THEN NULL; END $$;\n",
    ),
    Work(
        "calls of a function whose EXIT handler is taken each time",
        10_000,
        fixed(HANDLED),
        loop("SET i = i + 1 + inv(0);"),
        fixed(pg_handled("inv", "RETURN 1 / x;")),
        pg_loop("i := i + 1 + pg_temp.inv(0);"),
    ),
    Work(
        "calls of a function whose EXIT handler is never taken",
        10_000,
        fixed(HANDLED),
        loop("SET i = i + inv(1);"),
        fixed(pg_handled("inv", "RETURN 1 / x;")),
        pg_loop("i := i + pg_temp.inv(1);"),
    ),
    Work(
        "turns whose SET raises and whose CONTINUE handler counts",
        100_000,
        nothing,
        loop(
            "SET i = i + 1; SET x = 1 / (i - i);",
            "DECLARE x, c INTEGER DEFAULT 0; DECLARE CONTINUE HANDLER FOR SQLEXCEPTION SET c = c + 1; ",
        ),
        nothing,
        pg_loop(
            "i := i + 1; BEGIN x := 1 / (i - i); EXCEPTION WHEN division_by_zero THEN c := c + 1; END;",
            "x BIGINT; c BIGINT := 0; ",
        ),
    ),
    Work(
        "ATOMIC blocks in ATOMIC blocks, in a loop",
        10_000,
        lambda n: empty_table(n) + "INSERT INTO w VALUES (1, 0);\n",
        loop("SET i = i + 1; BEGIN ATOMIC BEGIN ATOMIC UPDATE w SET a = i WHERE k = 1; END; END;"),
        lambda n: empty_table(n) + "INSERT INTO w VALUES (1, 0);\n",
        pg_loop(
            "i := i + 1; BEGIN BEGIN UPDATE w SET a = i WHERE k = 1; EXCEPTION WHEN OTHERS THEN RAISE; END;\n"
            "EXCEPTION WHEN OTHERS THEN RAISE; END;"
        ),
    ),
    Work(
        f"SELECT INTOs by key, over {ASKED} rows, in a loop",
        10_000,
        fixed(rows(ASKED)),
        loop(f"SET i = i + 1; SET x = MOD(i * 7919, {ASKED}); SELECT a INTO y FROM t WHERE k = x;", "DECLARE x, y INTEGER; "),
        fixed(rows(ASKED)),
        pg_loop(f"i := i + 1; x := MOD(i * 7919, {ASKED}); SELECT a INTO y FROM t WHERE k = x;", "x BIGINT; y BIGINT; "),
    ),
    Work(
        f"SELECT INTOs of a join of {ASKED} rows with {ASKED} by an equality, in a loop",
        10_000,
        fixed(two_tables(ASKED)),
        loop("SET i = i + 1; SELECT COUNT(*) INTO x FROM t JOIN u ON t.a = u.k WHERE u.b <> i;", "DECLARE x INTEGER; "),
        fixed(two_tables(ASKED)),
        pg_loop("i := i + 1; SELECT COUNT(*) INTO x FROM t JOIN u ON t.a = u.k WHERE u.b <> i;", "x BIGINT; "),
    ),
    Work(
        f"UPDATEs by key, over {KEYED} rows",
        5_000,
        fixed(rows(KEYED)),
        updates_by_key,
        fixed(rows(KEYED)),
        updates_by_key,
    ),
    called(
        "a function with two variables, an IF and a SET",
        lambda i: i % 97,
        "steps",
        STEPS.format("INTEGER"),
        PG_STEPS,
        STEPS.format("BIGINT"),
    ),
    handled("none", lambda i: 1 + i % 9),
    handled("a tenth", lambda i: i % 10),
    handled("all", lambda i: 0),
    called(
        "a function with three nested compound statements and four handlers",
        lambda i: i % 10,
        "nested",
        NESTED.format("INTEGER", "SET y = 100 / x;"),
        PG_NESTED,
        NESTED.format("BIGINT", "IF x = 0 THEN SIGNAL SQLSTATE '22012'; ELSE SET y = 100 DIV x; END IF;"),
    ),
]


class Pair:
    """What is timed, what it is timed against, how many rounds both have, and how many times the other's time it may take."""

    def __init__(self, name, n, made, statement, other, most):
        self.name = name
        self.n = n
        self.made = made
        self.statement = statement
        self.other = other
        self.most = most


PAIRS = [
    Pair(
        "a WHILE with a handler that is never taken, against one without",
        1_000_000,
        nothing,
        loop("SET i = i + 1;", "DECLARE CONTINUE HANDLER FOR SQLEXCEPTION SET i = 0; "),
        loop("SET i = i + 1;"),
        1.10,
    ),
    Pair(
        "an ATOMIC block of INSERTs that is undone, against one that isn't",
        100_000,
        empty_table,
        UNDONE,
        atomic_inserts("DECLARE UNDO HANDLER FOR SQLEXCEPTION BEGIN END;", ""),
        2.0,
    ),
]


HEAVY = 4_096  # the greatest weight of a body that has a plan


def of_statements(name, weight):
    """A body of one statement after the other."""
    return f"CREATE FUNCTION {name} (x INTEGER) RETURNS INTEGER BEGIN DECLARE r INTEGER DEFAULT x;\n" + "SET r = r + 1;\n" * (weight - 2) + "RETURN r; END;\n"


def of_handlers(name, levels):
    """A body whose one statement stands in so many compound statements with a handler each, and so weighs 2 to that."""
    first = "BEGIN DECLARE EXIT HANDLER FOR SQLEXCEPTION RETURN -x;\n"
    rest = "".join(f"BEGIN DECLARE EXIT HANDLER FOR SQLSTATE '450{i + 1:02}' RESIGNAL SQLSTATE '450{i:02}';\n" for i in range(2, levels))
    last = "BEGIN DECLARE EXIT HANDLER FOR SQLSTATE '22012' RESIGNAL SQLSTATE '450" + f"{levels:02}';\n"
    return f"CREATE FUNCTION {name} (x INTEGER) RETURNS INTEGER\n{first}{rest}{last}RETURN 100 / x; " + "END; " * levels + "\n"


def of_calls(name, times):
    """Eight functions of which each calls the one below so many times: they weigh 1, 2, 5, 21, 85, 341, 1365 and 4096."""
    text = f"CREATE FUNCTION {name}1 (x INTEGER) RETURNS INTEGER BEGIN RETURN 100 / x; END;\n"
    for i, n in enumerate(times, 2):
        calls = " + ".join([f"{name}{i - 1}(x)"] * n)
        text += f"CREATE FUNCTION {name}{i if i < 8 else ''} (x INTEGER) RETURNS INTEGER BEGIN RETURN {calls}; END;\n"
    return text


HEAVIEST = [
    ("statements", lambda name: of_statements(name, HEAVY), lambda name: of_statements(name, HEAVY // 10)),
    ("handlers", lambda name: of_handlers(name, 12), None),
    ("calls", lambda name: of_calls(name, [1, 2, 4, 4, 4, 4, 3]), None),
]
