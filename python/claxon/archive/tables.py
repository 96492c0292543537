"""The tables of the results, and what is put into them."""
# The bytes "clax", and the version of the tables.
APPLICATION, VERSION = 0x636C6178, 2

# A file of which nothing was ever read has the verdict `not read`. Else the verdict is about the
# bytes that were read last, and `unread` and `missing` say what came after it.
TABLES = """
CREATE TABLE files (
    path BLOB PRIMARY KEY, size INTEGER, changed INTEGER, verified INTEGER NOT NULL,
    verdict TEXT NOT NULL, samples INTEGER, md5 TEXT, byte INTEGER, sample INTEGER, damage TEXT,
    places INTEGER, parts TEXT, version TEXT, rate INTEGER, total INTEGER, sum TEXT,
    ctime INTEGER, device INTEGER, inode INTEGER, path_text TEXT NOT NULL, unread TEXT,
    missing INTEGER
) WITHOUT ROWID;
CREATE INDEX taken_over ON files (path) WHERE ctime IS NULL AND verdict = 'ok';
CREATE INDEX IF NOT EXISTS not_right ON files (path)
    WHERE verdict <> 'ok' OR unread IS NOT NULL OR missing IS NOT NULL;
CREATE TABLE history (
    path BLOB NOT NULL, number INTEGER NOT NULL, time INTEGER NOT NULL, verdict TEXT NOT NULL,
    size INTEGER, changed INTEGER, md5 TEXT, sum TEXT, damage TEXT, before INTEGER, run INTEGER,
    PRIMARY KEY (path, number)
) WITHOUT ROWID;
CREATE TABLE runs (
    id INTEGER PRIMARY KEY, began REAL NOT NULL, ended REAL NOT NULL, files INTEGER NOT NULL,
    bytes INTEGER NOT NULL
);
"""

# Results of this version that were made before have no such index.
(PUT_INDEX,) = [row for row in TABLES.split(";\n") if " not_right " in row]

# `due` has what is to be verified, `unread` what can't be read, `incoming` the rows of a batch, and
# `within` the ranges of paths that a run is about.
TEMPORARY_TABLES = """
CREATE TEMP TABLE due (
    path BLOB, size INTEGER, ctime INTEGER, device INTEGER, inode INTEGER, is_new INTEGER
);
CREATE TEMP TABLE unread (path BLOB, reason TEXT);
CREATE TEMP TABLE within (low BLOB, high BLOB);
CREATE TEMP TABLE incoming (
    path BLOB, size INTEGER, changed INTEGER, verified INTEGER, verdict TEXT, samples INTEGER,
    md5 TEXT, byte INTEGER, sample INTEGER, damage TEXT, places INTEGER, parts TEXT, version TEXT,
    rate INTEGER, total INTEGER, sum TEXT, ctime INTEGER, device INTEGER, inode INTEGER,
    path_text TEXT
);
"""

ROW_COLUMNS = 20  # those of `incoming`

# What is said of the bytes of a file: one that was right, and couldn't be read the last time, isn't
# read.
_VERDICT = "CASE WHEN unread IS NOT NULL AND verdict = 'ok' THEN 'not read' ELSE verdict END"
_DAMAGE = "CASE WHEN unread IS NOT NULL AND verdict = 'ok' THEN unread ELSE damage END"

# As the index has it.
NOT_RIGHT = "(verdict <> 'ok' OR unread IS NOT NULL OR missing IS NOT NULL)"

# What is said of a file.
STATE = f"CASE WHEN missing IS NOT NULL THEN 'missing' ELSE {_VERDICT} END"

# The columns of reports, by the expressions that give them.
SHOWN = {
    "path": "path",
    "size": "size",
    "changed": "changed",
    "verified": "verified",
    "verdict": _VERDICT,
    "samples": "samples",
    "md5": "md5",
    "byte": "byte",
    "sample": "sample",
    "damage": _DAMAGE,
    "places": "places",
    "parts": "parts",
    "version": "version",
    "rate": "rate",
    "total": "total",
    "sum": "sum",
    "device": "device",
    "inode": "inode",
    "missing": "missing",
}
COLUMNS = list(SHOWN)

PUT_HISTORY = """
INSERT INTO history
SELECT new.path,
    1 + coalesce((SELECT max(number) FROM history WHERE history.path = new.path), 0),
    new.verified, new.verdict, new.size, new.changed, new.md5, new.sum, new.damage,
    CASE WHEN old.verdict <> 'not read' THEN old.verified END, :run
FROM incoming AS new LEFT JOIN files AS old ON old.path = new.path
WHERE new.verdict <> 'not read' AND (
    old.verdict IS NOT new.verdict OR old.size IS NOT new.size OR old.changed IS NOT new.changed
    OR (old.sum IS NOT new.sum AND old.sum IS NOT NULL)
)
"""

PUT_READ = """
INSERT OR REPLACE INTO files SELECT *, NULL, NULL FROM incoming WHERE verdict <> 'not read'
"""

# The rows of right files that are new, of which `files` has none; the history may.
PUT_NEW = "INSERT INTO files VALUES {rows}"
NEW_ROW = (
    "(?, ?, ?, ?, 'ok', ?, ?, NULL, NULL, NULL, NULL, NULL, ?, ?, ?, ?, ?, ?, ?, ?, NULL, NULL)"
)
PUT_NEW_HISTORY = """
INSERT INTO history
SELECT column1, 1 + coalesce((SELECT max(number) FROM history WHERE path = column1), 0), column2,
    'ok', column3, column4, column5, column6, NULL, NULL, {run}
FROM (VALUES {rows})
"""
NEW_HISTORY_ROW = "(?, ?, ?, ?, ?, ?)"
PUT_HISTORY_BETWEEN = """
INSERT INTO history SELECT path, 1, verified, verdict, size, changed, md5, sum, NULL, NULL, ?
FROM files WHERE path BETWEEN ? AND ?
"""

# A verdict on bytes that were read stays beside.
PUT_UNREAD = """
INSERT INTO files (path, verified, verdict, damage, version, path_text, unread)
SELECT path, verified, verdict, damage, version, path_text, damage
FROM incoming WHERE verdict = 'not read'
ON CONFLICT (path) DO UPDATE SET
    unread = excluded.unread,
    missing = NULL,
    damage = CASE verdict WHEN 'not read' THEN excluded.damage ELSE damage END,
    verified = CASE verdict WHEN 'not read' THEN excluded.verified ELSE verified END
"""

# A file is due that is new, isn't what was verified, isn't right, couldn't be read the last time,
# or was verified before some time. Of rows that were taken over the inode isn't known yet.
FOUND_ROW = "(?, ?, ?, ?, ?, ?)"
PUT_DUE = """
INSERT INTO due SELECT found.column1, found.column2, found.column4, found.column6, found.column5,
    files.path IS NULL
FROM (VALUES {rows}) AS found LEFT JOIN files ON files.path = found.column1
WHERE files.size IS NOT found.column2 OR files.changed IS NOT found.column3
    OR files.ctime <> found.column4 OR files.inode <> found.column5
    OR files.verdict <> 'ok' OR files.unread IS NOT NULL OR files.verified < ?
"""

# What is known of files between two paths, which aren't due where they are found as they were, and
# the paths of those among them that are due anyway.
_KNOWN = """
SELECT path, size, changed, ctime, inode FROM files WHERE path BETWEEN ? AND ?{since}
ORDER BY path LIMIT ?
"""
KNOWN, KNOWN_SINCE = _KNOWN.format(since=""), _KNOWN.format(since=" AND verified >= ?")
NOT_RIGHT_BETWEEN = f"SELECT path FROM files WHERE {NOT_RIGHT} AND path BETWEEN ? AND ? LIMIT ?"

# The rows of version 1, in which `missing` stood in place of the verdict before it.
_ROWS_OF_VERSION_1 = """
SELECT path, size, changed, verified,
    CASE WHEN verdict <> 'missing' THEN verdict WHEN places IS NOT NULL THEN 'wrong'
        WHEN md5 = 'ok' THEN 'ok' ELSE 'not read' END AS verdict,
    samples, md5, byte, sample, CASE WHEN verdict <> 'missing' THEN damage END AS damage, places,
    parts, version, NULL AS rate, NULL AS total, NULL AS sum, NULL AS ctime, NULL AS device,
    NULL AS inode, path_text(path) AS path_text,
    CASE verdict WHEN 'not read' THEN damage END AS unread,
    CASE verdict WHEN 'missing' THEN verified END AS missing
FROM {files}
"""

_HISTORY_OF_VERSION_1 = """
SELECT path, 1 AS number, verified AS time, verdict, size, changed, md5, sum, damage,
    NULL AS before, NULL AS run
FROM files WHERE verdict <> 'not read'
"""

TAKE_OVER = [
    "ALTER TABLE files RENAME TO files_1",
    *TABLES.split(";\n")[:4],
    f"INSERT INTO files {_ROWS_OF_VERSION_1.format(files='files_1')}",
    f"INSERT INTO history {_HISTORY_OF_VERSION_1}",
    "DROP TABLE files_1",
    f"PRAGMA user_version = {VERSION}",
]

VIEWS_OF_VERSION_1 = [
    f"CREATE TEMP VIEW files AS {_ROWS_OF_VERSION_1.format(files='main.files')}",
    f"CREATE TEMP VIEW history AS {_HISTORY_OF_VERSION_1}",
]


def path_text(path: bytes) -> str:
    """The path as SQL finds it; bytes that aren't UTF-8 as `\\xNN`."""
    return path.decode("utf-8", "backslashreplace")
