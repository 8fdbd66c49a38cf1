#!/usr/bin/env python3
"""Upserts over sqlite3 for bench/store.sh: store_reference.py STORE KEY CHANGES. Each change opens the store, puts the row of
the key, with other bytes at its end, in a transaction of its own that waits for the disk, and closes the store."""
import sqlite3
import sys

UPSERT = "INSERT INTO flight (key, bytes) VALUES (?1, ?2) ON CONFLICT (key) DO UPDATE SET bytes = excluded.bytes"
CREATE = "CREATE TABLE IF NOT EXISTS flight (key TEXT PRIMARY KEY NOT NULL, bytes BLOB NOT NULL) STRICT"


def opened(store):
    conn = sqlite3.connect(store, isolation_level=None)
    conn.execute("PRAGMA journal_mode = wal")
    conn.execute("PRAGMA synchronous = full")
    return conn


def main():
    store, key, changes = sys.argv[1], sys.argv[2], int(sys.argv[3])
    conn = opened(store)
    (row,) = conn.execute("SELECT bytes FROM flight WHERE key = ?1", (key,)).fetchone()
    conn.close()
    for change in range(changes):
        conn = opened(store)
        conn.execute(CREATE)
        conn.execute(UPSERT, (key, row[:-6] + b"%06d" % change))
        conn.close()


main()
