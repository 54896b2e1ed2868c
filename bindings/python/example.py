"""Binds the query of the repository's README, with a name that tries to leave its literal, and writes the text.

A query that servers read in different ways is refused.
"""

import sys

import mysql_params

QUERY = "SELECT * FROM t WHERE id = :id AND name = :name"

found = mysql_params.first_unportable(QUERY)
if found is not None:
    sys.exit(f"not portable at byte {found.position}: {found.construct.message}")
try:
    text = mysql_params.bind(QUERY, {"id": 42, "name": "x' OR '1'='1"})
except mysql_params.Error as error:
    sys.exit(str(error))
sys.stdout.buffer.write(text + b"\n")
