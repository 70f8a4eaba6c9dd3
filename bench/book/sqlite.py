"""Prints how many rows of 11 bytes a second SQLite makes durable, at 1, 64 and 1,024 a transaction.

The journal is a write-ahead log with full synchronization: at each commit the log is synced.
"""
import os
import sqlite3
import time

ROW = bytes(11)


def measure(commits, each):
    for suffix in "", "-wal", "-shm":
        if os.path.exists("bench.sqlite" + suffix):
            os.remove("bench.sqlite" + suffix)
    store = sqlite3.connect("bench.sqlite", isolation_level=None)
    assert store.execute("PRAGMA journal_mode=WAL").fetchone() == ("wal",)
    store.execute("PRAGMA synchronous=FULL")
    store.execute("CREATE TABLE events (number INTEGER PRIMARY KEY, record BLOB)")
    start = time.perf_counter()
    for _ in range(commits):
        store.execute("BEGIN")
        store.executemany("INSERT INTO events (record) VALUES (?)", [(ROW,)] * each)
        store.execute("COMMIT")
    took = time.perf_counter() - start
    assert store.execute("SELECT count(*) FROM events").fetchone() == (commits * each,)
    store.close()
    rate = commits * each / took
    print(f"SQLite {sqlite3.sqlite_version}, {each} a commit: {rate:.0f} rows a second")


measure(2_000, 1)
measure(500, 64)
measure(60, 1_024)
