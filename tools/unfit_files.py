"""Files that the store takes, and files that it refuses: each a name, and the statements by which sqlite makes it."""
from store_files import INDEX, LINK, MEMBER, THREE

FIT = [MEMBER, LINK, THREE]

# Rows behind the tables and three members.
UNFIT_ROWS = [
    ("id 0", "INSERT INTO member VALUES (0, 'm0')"),
    ("a negative id", "INSERT INTO member VALUES (-1, 'm')"),
    ("id 100001", "INSERT INTO member VALUES (100001, 'm')"),
    ("an id of 33 bits", "INSERT INTO member VALUES (4294967297, 'm')"),
    ("an empty name", "INSERT INTO member VALUES (4, '')"),
    ("a name of 41 bytes", f"INSERT INTO member VALUES (4, '{'n' * 41}')"),
    ("a name with a space", "INSERT INTO member VALUES (4, 'a b')"),
    ("a name with a line feed", "INSERT INTO member VALUES (4, 'a' || char(10))"),
    ("a name with a zero byte", "INSERT INTO member VALUES (4, 'a' || char(0))"),
    ("a name that isn't ASCII", "INSERT INTO member VALUES (4, 'Zoé')"),
    ("a name that isn't UTF-8", "INSERT INTO member VALUES (4, CAST(x'6dff' AS TEXT))"),
    ("a link to nobody", "INSERT INTO link VALUES (1, 4, 0)"),
    ("a link of nobody", "INSERT INTO link VALUES (4, 1, 0)"),
    ("a link to id 0", "INSERT INTO link VALUES (1, 0, 0)"),
    ("a link to a negative id", "INSERT INTO link VALUES (1, -2, 0)"),
    ("a friend who is nobody", "INSERT INTO link VALUES (1, 4, 1)"),
    ("a block of nobody", "INSERT INTO link VALUES (3, 4, 2)"),
    ("an invitation of oneself", "INSERT INTO link VALUES (1, 1, 0)"),
    ("a friendship with oneself", "INSERT INTO link VALUES (1, 1, 1)"),
    ("a block of oneself", "INSERT INTO link VALUES (1, 1, 2)"),
    ("friends with the larger id first", "INSERT INTO link VALUES (2, 1, 1)"),
    ("invitations both ways", "INSERT INTO link VALUES (1, 2, 0), (2, 1, 0)"),
    ("friends, and an invitation back", "INSERT INTO link VALUES (1, 2, 1), (2, 1, 0)"),
    ("friends both ways", "INSERT INTO link VALUES (1, 2, 1), (2, 1, 1)"),
    ("an invitation, and a block back", "INSERT INTO link VALUES (1, 2, 0), (2, 1, 2)"),
    ("a block, and an invitation back", "INSERT INTO link VALUES (1, 2, 2), (2, 1, 0)"),
    ("friends, and a block back", "INSERT INTO link VALUES (1, 2, 1), (2, 1, 2)"),
    ("state 3", "PRAGMA ignore_check_constraints = 1; INSERT INTO link VALUES (1, 2, 3)"),
    ("state -1", "PRAGMA ignore_check_constraints = 1; INSERT INTO link VALUES (1, 2, -1)"),
    ("links without members", "DELETE FROM member; INSERT INTO link VALUES (1, 2, 0)"),
]

# What stands beside the tables, or is gone.
UNFIT_SCHEMAS = [
    ("another table", "CREATE TABLE more(a INTEGER)"),
    ("a view beside", "CREATE VIEW more AS SELECT id FROM member"),
    ("another index", "CREATE INDEX more ON member(name)"),
    ("an index too many", f"{INDEX}; CREATE INDEX more ON link(st)"),
    ("an index of the name on other columns", "CREATE INDEX link_by_b ON link(b)"),
    ("an index of the name on part of the rows", f"{INDEX} WHERE st = 1"),
    ("a trigger", "CREATE TRIGGER more AFTER INSERT ON link BEGIN SELECT 1; END"),
    ("statistics", f"{INDEX}; INSERT INTO link VALUES (1, 2, 0); ANALYZE"),
    ("no table of links", "DROP TABLE link"),
    ("no table of members", "DROP TABLE member"),
    ("a view in the place of the links", "DROP TABLE link; CREATE VIEW link AS SELECT id AS a, id AS b, 0 AS st FROM member"),
    ("a view in the place of the members", "DROP TABLE member; CREATE VIEW member AS SELECT a AS id, 'm' AS name FROM link"),
    ("another column of the members", "ALTER TABLE member ADD COLUMN age INTEGER"),
    ("another column of the links", "ALTER TABLE link ADD COLUMN since INTEGER"),
    ("a column of another name", "ALTER TABLE member RENAME COLUMN name TO called"),
    ("a table of another name", "ALTER TABLE link RENAME TO links"),
]

# Tables in the places of the two.
UNFIT_TABLES = [
    ("text ids", "CREATE TABLE member(id TEXT PRIMARY KEY, name TEXT NOT NULL) STRICT", LINK),
    ("names that may be null", "CREATE TABLE member(id INTEGER PRIMARY KEY, name TEXT) STRICT", LINK),
    ("members of any type", "CREATE TABLE member(id INTEGER PRIMARY KEY, name TEXT NOT NULL)", LINK),
    ("names that are unique", MEMBER.replace("NOT NULL", "NOT NULL UNIQUE"), LINK),
    ("names of a default", MEMBER.replace("NOT NULL", "NOT NULL DEFAULT 'm'"), LINK),
    ("names without case", MEMBER.replace("NOT NULL", "NOT NULL COLLATE NOCASE"), LINK),
    ("ids that are counted", MEMBER.replace("KEY", "KEY AUTOINCREMENT"), LINK),
    ("members without rowids", MEMBER + ", WITHOUT ROWID", LINK),
    ("states of no rule", MEMBER, LINK.replace(" CHECK(st IN (0, 1, 2))", "")),
    ("states of another rule", MEMBER, LINK.replace("(0, 1, 2)", "(0, 1, 2, 3)")),
    ("links of another key", MEMBER, LINK.replace("KEY(a, b)", "KEY(b, a)")),
    ("links without a key", MEMBER, LINK.replace(", PRIMARY KEY(a, b)", "")),
    ("links of any type", MEMBER, LINK.replace(" STRICT", "")),
    ("links that refer to members", MEMBER, LINK.replace("a INTEGER NOT NULL", "a INTEGER NOT NULL REFERENCES member(id)")),
    ("the tables in the other order", LINK, MEMBER),
]

# Whole files of a form that isn't read.
UNFIT_FORMS = [
    ("text of 16 bits", ["PRAGMA encoding = 'UTF-16'", *FIT]),
    ("a file that vacuums itself", ["PRAGMA auto_vacuum = 1", *FIT]),
]

# Files that are opened: what the store then answers.
FIT_FILES = [
    ("a file without blocks", FIT, {"profile:2": "bob 0 0", "friends:2": ".", "blocked:2": "."}),
    ("a file with a block", FIT + ["INSERT INTO link VALUES (2, 1, 2)"], {"profile:2": "bob 0 0", "blocked:2": "1"}),
    (
        "blocks both ways",
        FIT + ["INSERT INTO link VALUES (2, 1, 2), (1, 2, 2)"],
        {"profile:1": "m1 0 0", "blocked:1": "2", "blocked:2": "1"},
    ),
    (
        "a file with links and the index",
        [MEMBER, LINK, INDEX, THREE, "INSERT INTO link VALUES (1, 2, 1), (3, 2, 0), (3, 1, 2)"],
        {"profile:2": "bob 1 1", "friends:1": "2", "pending:2": "3", "nfriends:2": "1", "npending:2": "1", "blocked:3": "1"},
    ),
    ("tables without rows", [MEMBER, LINK], {"profile:2": "m2 0 0", "profile:3": "m3 0 0", "profile:4": "-"}),
    (
        "ids with gaps, and names of 1 and 40 bytes",
        [MEMBER, LINK, f"INSERT INTO member VALUES (1, '!'), (7, '{'~' * 40}'), (100000, 'last')"],
        {"profile:1": "! 0 0", "profile:2": "-", "profile:7": "~" * 40 + " 0 0", "profile:100000": "last 0 0"},
    ),
    (
        "tables written otherwise",
        ['create table "member" (id integer primary key, /* her name */ name text not null) strict', LINK, THREE],
        {"profile:2": "bob 0 0"},
    ),
    ("pages of 512 bytes", ["PRAGMA page_size = 512", *FIT], {"profile:2": "bob 0 0"}),
    ("pages of 65536 bytes", ["PRAGMA page_size = 65536", *FIT], {"profile:2": "bob 0 0"}),
    ("a file with a log of its own", ["PRAGMA journal_mode = WAL", *FIT], {"profile:2": "bob 0 0"}),
    ("a file with a version", ["PRAGMA user_version = 7; PRAGMA application_id = 9", *FIT], {"profile:2": "bob 0 0"}),
    (
        "a file with free pages",
        FIT + ["WITH RECURSIVE n(i) AS (SELECT 4 UNION ALL SELECT i + 1 FROM n WHERE i < 2000) "
               "INSERT INTO member SELECT i, 'm' || i FROM n", "DELETE FROM member WHERE id > 3"],
        {"profile:2": "bob 0 0", "profile:4": "-"},
    ),
    ("a file that was vacuumed", FIT + [INDEX, "DELETE FROM member WHERE id = 3", "VACUUM"], {"profile:2": "bob 0 0", "profile:3": "-"}),
]
