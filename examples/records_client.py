"""A session at a server of records, by Python's standard library alone.

    python3 examples/records_client.py 8100 ANN a1 'SELECT SAL FROM PAY' COMMIT

A session is its connection: where the connection ends, the server rolls back what was not committed.
"""

import http.client
import json
import sys


class Refused(Exception):
    """The statement, the logon or the logoff was refused, with this code. A refused statement doesn't end
    the session."""

    def __init__(self, code):
        super().__init__(f"refused with code {code}")
        self.code = code


class Fault(Exception):
    """The server couldn't do it: "disk", "full" or "memory". At a statement the session goes on as if
    nothing was done. After "disk" a later statement takes it back; if the server stops before that, the
    next start may have it, whole."""

    def __init__(self, fault):
        super().__init__(f"fault of the server: {fault}")
        self.fault = fault


class Session:
    """One session, as a context: it logs on at the start, and logs off at a normal end. Where the block or
    one of these fails, the connection is closed, and the server rolls back. Any exception but Refused and
    Fault leaves open whether the last statement was done."""

    def __init__(self, port, user, password, timeout=60):
        self.connection = http.client.HTTPConnection("127.0.0.1", port, timeout=timeout)
        # a connection that was lost must not be made anew in silence: its session is lost too
        self.connection.auto_open = 0
        self.logon = {"user": user, "password": password}

    def __enter__(self):
        self.connection.connect()
        try:
            self.ask("/logon", self.logon)
        except BaseException:
            self.connection.close()
            raise
        return self

    def __exit__(self, kind, error, trace):
        try:
            if kind is None:
                self.ask("/logoff", {})
        finally:
            self.connection.close()

    def sql(self, text):
        """The reply to a statement: its members are code, columns, count and rows."""
        return self.ask("/sql", {"sql": text})

    def ask(self, target, members):
        self.connection.request("POST", target, json.dumps(members).encode())
        response = self.connection.getresponse()
        reply = json.loads(response.read())
        if "fault" in reply:
            raise Fault(reply["fault"])
        if "error" in reply:
            raise http.client.HTTPException(f"status {reply['error']}")
        if reply["code"] != 0:
            raise Refused(reply["code"])
        return reply


if __name__ == "__main__":
    port, user, password = sys.argv[1:4]
    with Session(int(port), user, password) as session:
        for statement in sys.argv[4:]:
            print(json.dumps(session.sql(statement)))
