"""Sends texts by a driver of Python, as handed_over.py tells it: sender.py SOCKET DRIVER

DRIVER is pymysql, MySQLdb (mysqlclient), or one of these over SQLAlchemy, as sqlalchemy+pymysql. Each line of standard input is
a JSON object, which gets a line of JSON as its answer.
"""

import importlib
import json
import sys
import traceback

import mysql_params


class Sender:
    """A connection of a driver, by itself or over SQLAlchemy."""

    def __init__(self, path, driver):
        self.path = path
        self.alchemy, _, self.driver = driver.rpartition("+")
        self.connection = None

    def connect(self, charset):
        if self.alchemy:
            import sqlalchemy

            url = f"mysql+{self.driver.lower()}://root@/?unix_socket={self.path}&charset={charset}"
            self.connection = sqlalchemy.create_engine(url).connect()
        else:
            module = importlib.import_module(self.driver)
            self.connection = module.connect(user="root", unix_socket=self.path, charset=charset)

    def plain(self, text):
        """Send a text by the driver alone."""
        if self.alchemy:
            self.connection.exec_driver_sql(text)
        else:
            with self.connection.cursor() as cursor:
                cursor.execute(text)

    def rows(self, query, values):
        """Send a bound text, and return its rows."""
        if self.alchemy:
            result = mysql_params.exec_driver_sql(self.connection, query, values)
            return [list(row) for row in result] if result.returns_rows else []
        with self.connection.cursor() as cursor:
            mysql_params.execute(cursor, query, values)
            return [list(row) for row in cursor.fetchall()] if cursor.description else []

    def answer(self, request):
        if "connect" in request:
            self.connect(request["connect"])
        elif "plain" in request:
            self.plain(request["plain"])
        else:
            return {"rows": self.rows(request["send"], request["values"])}
        return {}


def main(path, driver):
    sender = Sender(path, driver)
    for line in sys.stdin:
        try:
            answer = sender.answer(json.loads(line))
        except (mysql_params.Error, TypeError, ValueError) as error:
            answer = {"refused": str(error), "shown": traceback.format_exc() + repr(error)}
        except Exception as error:
            answer = {"failed": repr(error)}
        print(json.dumps(answer, default=str), flush=True)


main(*sys.argv[1:3])
