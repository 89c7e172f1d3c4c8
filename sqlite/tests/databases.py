"""Databases with the extension, and what the tests share. IDSET is the path of idset.so without its ending."""

import json
import os
import pathlib
import sqlite3
import sys

TOP = pathlib.Path(__file__).resolve().parents[2]
sys.path.append(f"{TOP}/vectors")
# The integers from 0 to another, as rows.
ROWS = "WITH RECURSIVE n(i) AS (VALUES (0) UNION ALL SELECT i + 1 FROM n WHERE i < {})"


def connected(path=":memory:", **more):
    """A connection to a database with the extension."""
    connection = sqlite3.connect(path, **more)
    connection.enable_load_extension(True)
    connection.load_extension(os.environ["IDSET"])
    connection.enable_load_extension(False)
    return connection


def value(connection, sql, *given):
    """The value of the first column of the first row."""
    return connection.execute(sql, given).fetchone()[0]


def packed(connection, ids):
    return value(connection, "SELECT idset(?)", json.dumps(list(ids)))


def unpacked(connection, data):
    """The ids of a set as a list, or None."""
    return None if data is None else [id for id, in connection.execute("SELECT id FROM idset_each(?)", (data,))]


def refusal(connection, sql, *given):
    """The words of the error that a statement ends with, and its name, or what it returned."""
    try:
        return connection.execute(sql, given).fetchall()
    except sqlite3.Error as error:
        return str(error), error.sqlite_errorname
