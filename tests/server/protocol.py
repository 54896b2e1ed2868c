"""A small client of the MySQL protocol over a Unix socket, which keeps rows as the server sent them.

It sends one statement a packet, and several in one (CLIENT_MULTI_STATEMENTS) only by `several`.
"""

import socket
import struct
from typing import NamedTuple, Optional

# Capabilities: long password, long flag, protocol 4.1, transactions, secure connection, plugin of authentication.
_CAPABILITIES = 0x1 | 0x4 | 0x200 | 0x2000 | 0x8000 | 0x80000
_COM_QUERY, _COM_CHANGE_USER, _COM_PREPARE, _COM_EXECUTE, _COM_CLOSE, _COM_SET_OPTION, _COM_RESET = (
    3, 17, 22, 23, 25, 27, 31,
)  # fmt: skip
_PLUGIN = b"mysql_native_password\0"
_UTF8MB4 = 45
_MULTI_STATEMENTS_ON, _MULTI_STATEMENTS_OFF = 0, 1
_MORE_RESULTS = 8


class ServerError(Exception):
    """The server's refusal of a statement."""

    def __init__(self, packet: bytes) -> None:
        self.code = int.from_bytes(packet[1:3], "little")
        self.text = packet[3:].decode("latin1")
        super().__init__(f"{self.code} {self.text}")


class Column(NamedTuple):
    """A column of a result: its name, the number of its type, its flags."""

    name: bytes
    kind: int
    flags: int


class Result(NamedTuple):
    """A result: its columns and the packets of its rows."""

    columns: list
    packets: list

    def rows(self) -> list:
        """Return the rows, read in text form: lists of bytes and None."""
        return [_text_row(packet) for packet in self.packets]


def lenenc(packet: bytes, at: int) -> tuple:
    """Return the length-encoded string at a byte of a packet, or None for NULL, and the byte after it."""
    lead = packet[at]
    if lead == 0xFB:
        return None, at + 1
    count = {0xFC: 2, 0xFD: 3, 0xFE: 8}.get(lead, 0)
    first = at + 1 + count
    end = first + (int.from_bytes(packet[at + 1 : first], "little") if count else lead)
    return packet[first:end], end


def _text_row(packet: bytes) -> list:
    cells, at = [], 0
    while at < len(packet):
        cell, at = lenenc(packet, at)
        cells.append(cell)
    return cells


def _column(packet: bytes) -> Column:
    """Read a column definition: catalog, schema, two names of the table, two of the column, then fixed fields."""
    at, strings = 0, []
    for _ in range(6):
        string, at = lenenc(packet, at)
        strings.append(string)
    kind, flags = struct.unpack_from("<BH", packet, at + 7)
    return Column(strings[4], kind, flags)


def _is_end(packet: bytes) -> bool:
    return packet[0] == 0xFE and len(packet) < 9


class Connection:
    """A connection as `root`, without a password. Without a character set it is as the server makes it.

    `is_mysql`: the server's own name for its version isn't MariaDB's.
    """

    def __init__(self, path: str, charset: Optional[str] = "utf8mb4", sql_mode: str = "") -> None:
        self._socket = socket.socket(socket.AF_UNIX)
        self._socket.settimeout(120)
        self._socket.connect(path)
        self._buffer, self._at = b"", 0
        self._log_in()
        if charset:
            self.set(charset, sql_mode)

    def close(self) -> None:
        """Close the connection."""
        self._socket.close()

    def set(self, charset: str, sql_mode: str) -> None:
        """Set the character set and the sql_mode."""
        self.query(f"SET NAMES {charset}".encode())
        self.query(f"SET sql_mode='{sql_mode}'".encode())

    def query(self, text: bytes) -> Optional[Result]:
        """Send a statement. Return its result, or None for one without rows."""
        self._send(bytes([_COM_QUERY]) + text)
        return self._result()

    def make_anew(self, kind: bytes, name: bytes, definition: bytes) -> None:
        """Make a table or a database, in the place of one of this name."""
        self.query(b"DROP %s IF EXISTS %s" % (kind, name))
        self.query(b"CREATE %s %s %s" % (kind, name, definition))

    def shapes(self, texts: list) -> list:
        """Send short statements at once. Return for each the number of its columns, or minus its error's code."""
        packets = [struct.pack("<I", len(text) + 1) + b"\3" + text for text in texts]
        self._socket.sendall(b"".join(packets))
        return [self._shape() for _ in texts]

    def answers(self, texts: list) -> list:
        """Send short statements at once. Return the rows of each, or minus its error's code."""
        packets = [struct.pack("<I", len(text) + 1) + b"\3" + text for text in texts]
        self._socket.sendall(b"".join(packets))
        return [self._rows_or_code() for _ in texts]

    def several(self, text: bytes) -> list:
        """Send several statements in one text. Return the shape of each, as `shapes` does, up to the first error.

        A statement without rows changes fewer than 251: then its counts are a byte each.
        """
        self._set_option(_MULTI_STATEMENTS_ON)
        self._send(bytes([_COM_QUERY]) + text)
        found, status = [], _MORE_RESULTS
        while status & _MORE_RESULTS:
            shape, packet = self._shape_and_end()
            found.append(shape)
            status = 0 if shape < 0 else int.from_bytes(packet[3:5], "little")
        self._set_option(_MULTI_STATEMENTS_OFF)
        return found

    def reset(self) -> None:
        """Have the server make the connection as new, as pools do."""
        self._send(bytes([_COM_RESET]))
        self._checked()

    def change_user(self) -> None:
        """Log in again, as the same user."""
        self._send(bytes([_COM_CHANGE_USER]) + b"root\0\0\0" + struct.pack("<H", _UTF8MB4) + _PLUGIN)
        self._logged_in(2)

    def binary(self, text: bytes) -> Result:
        """Prepare a statement without parameters, execute it, and return its result, with rows in binary form."""
        number, _ = self._prepare(text)
        self._send(struct.pack("<BIBI", _COM_EXECUTE, number, 0, 1))
        result = self._result()
        self._send(struct.pack("<BI", _COM_CLOSE, number))
        return result

    def prepared_before(self, text: bytes, others: list) -> Result:
        """Prepare a statement without parameters, send others, and execute it then. Return its rows in binary form."""
        number, _ = self._prepare(text)
        for other in others:
            self.query(other)
        self._send(struct.pack("<BIBI", _COM_EXECUTE, number, 0, 1))
        try:
            return self._result()
        finally:
            self._send(struct.pack("<BI", _COM_CLOSE, number))

    def executed(self, text: bytes, kind: int, values: list) -> Result:
        """Prepare a statement, execute it with values of one type in binary form. Return the rows in that form."""
        number, _ = self._prepare(text)
        bitmap = bytes((len(values) + 7) // 8)
        types = b"\1" + struct.pack("<H", kind) * len(values) if values else b""
        self._send(struct.pack("<BIBI", _COM_EXECUTE, number, 0, 1) + bitmap + types + b"".join(values))
        try:
            return self._result()
        finally:
            self._send(struct.pack("<BI", _COM_CLOSE, number))

    def parameters(self, text: bytes) -> int:
        """Prepare a statement. Return how many values the server wants for it."""
        number, parameters = self._prepare(text)
        self._send(struct.pack("<BI", _COM_CLOSE, number))
        return parameters

    def places(self, texts: list) -> list:
        """Prepare short statements at once. Return how many values each wants, or minus its error's code."""
        packets = [struct.pack("<I", len(text) + 1) + bytes([_COM_PREPARE]) + text for text in texts]
        self._socket.sendall(b"".join(packets))
        found, numbers = [], []
        for _ in texts:
            packet = self._packet()
            if packet[0] == 0xFF:
                found.append(_minus_code(packet))
                continue
            number, parameters = self._prepared(packet)
            found.append(parameters)
            numbers.append(number)
        self._socket.sendall(b"".join(struct.pack("<IBI", 5, _COM_CLOSE, number) for number in numbers))
        return found

    def _prepare(self, text: bytes) -> tuple:
        """Return the number of a prepared statement, and how many parameters it has."""
        self._send(bytes([_COM_PREPARE]) + text)
        return self._prepared(self._checked())

    def _prepared(self, packet: bytes) -> tuple:
        number, columns, parameters = struct.unpack_from("<IHH", packet, 1)
        for count in (parameters, columns):
            for _ in range(count + 1 if count else 0):
                self._packet()
        return number, parameters

    def _set_option(self, option: int) -> None:
        self._send(struct.pack("<BH", _COM_SET_OPTION, option))
        self._checked()

    def _log_in(self) -> None:
        self.is_mysql = b"MariaDB" not in self._packet()
        answer = struct.pack("<IIB23x", _CAPABILITIES, 1 << 24, _UTF8MB4) + b"root\0" + b"\0" + _PLUGIN
        self._send(answer, 1)
        self._logged_in(3)

    def _logged_in(self, number: int) -> None:
        """Answer the server if it names a plugin once more, by a packet of this number: there is no password."""
        if self._checked()[0] == 0xFE:
            self._send(b"", number)
            self._checked()

    def _send(self, payload: bytes, number: int = 0) -> None:
        if len(payload) >= 1 << 24:
            raise ValueError("the statement is too long for one packet")
        self._socket.sendall(struct.pack("<I", len(payload) | number << 24) + payload)

    def _need(self, count: int) -> int:
        """Have so many bytes more in the buffer, from the index that is returned; they are taken."""
        missing = self._at + count - len(self._buffer)
        if missing > 0:
            parts = [self._buffer[self._at :]]
            while missing > 0:
                part = self._socket.recv(max(missing, 1 << 16))
                if not part:
                    raise ConnectionError("the server closed the connection")
                parts.append(part)
                missing -= len(part)
            self._buffer, self._at = b"".join(parts), 0
        begin = self._at
        self._at = begin + count
        return begin

    def _packet(self) -> bytes:
        begin = self._need(4)
        length = int.from_bytes(self._buffer[begin : begin + 3], "little")
        begin = self._need(length)
        return self._buffer[begin : begin + length]

    def _checked(self) -> bytes:
        packet = self._packet()
        if packet[0] == 0xFF:
            raise ServerError(packet)
        return packet

    def _result(self) -> Optional[Result]:
        packet = self._checked()
        if packet[0] == 0:
            return None
        columns = [_column(self._packet()) for _ in range(_count(packet))]
        self._packet()
        packets = []
        while True:
            packet = self._checked()
            if _is_end(packet):
                return Result(columns, packets)
            packets.append(packet)

    def _rows_or_code(self):
        try:
            result = self._result()
        except ServerError as error:
            return -error.code
        return result and result.rows()

    def _shape(self) -> int:
        return self._shape_and_end()[0]

    def _shape_and_end(self) -> tuple:
        """Return the shape of a result, and its last packet."""
        packet = self._packet()
        if packet[0] == 0xFF:
            return _minus_code(packet), packet
        if packet[0] == 0:
            return 0, packet
        columns = _count(packet)
        ends = 0
        while ends < 2:
            packet = self._packet()
            if packet[0] == 0xFF:
                return _minus_code(packet), packet
            ends += _is_end(packet)
        return columns, packet


def _minus_code(packet: bytes) -> int:
    return -int.from_bytes(packet[1:3], "little")


def _count(packet: bytes) -> int:
    """Return the number of columns that begins a result."""
    return int.from_bytes(packet[1:3], "little") if packet[0] == 0xFC else packet[0]


def code_of(connection: Connection, text: bytes) -> int:
    """Return the code of the server's refusal, or 0."""
    try:
        connection.query(text)
    except ServerError as error:
        return error.code
    return 0
