"""A server that runs nothing and keeps the statements that a command-line client sends to it."""

import os
import pathlib
import re
import socket
import struct
import subprocess
from typing import NamedTuple, Optional

# README's options of a client.
_SHELL = (pathlib.Path(__file__).resolve().parents[2] / "README.md").read_text().partition("\n    mysql ")[2].partition(" < ")[0]
OPTIONS = tuple(re.findall(r"--\S+", _SHELL))

_COM_QUIT, _COM_QUERY = 1, 3
_AUTOCOMMIT, _NO_BACKSLASH_ESCAPES = 2, 512
# All capabilities of 24 bits but TLS and compression, and plugins of authentication.
_CAPABILITIES = 0x00FFFFFF & ~0x0800 & ~0x0020 | 0x00080000
_UTF8MB4 = 45
# What MySQL's client asks on its own. An error for the second says that `$$` opens a string.
_OWN = (b"select @@version_comment limit 1", b"select $$")
_SYNTAX = b"\xff" + struct.pack("<H", 1064) + b"#42000no syntax"


class Client(NamedTuple):
    """A client: its command, an option for no TLS, and the version and the plugin that it expects of its own server."""

    command: str
    no_tls: str
    version: bytes
    plugin: bytes


MYSQL = Client("mysql", "--ssl-mode=DISABLED", b"9.7.4", b"caching_sha2_password")
MARIADB = Client("mariadb", "--skip-ssl", b"5.5.5-10.11.19-MariaDB", b"mysql_native_password")


class Recorder:
    """A socket in a folder, at which one client is served after the other."""

    def __init__(self, folder: str, client: Client) -> None:
        self._client = client
        self._path, self._input = (os.path.join(folder, name) for name in ("recorder", "recorded.sql"))
        self._listener = socket.socket(socket.AF_UNIX)
        self._listener.bind(self._path)
        self._listener.listen(1)
        self._listener.settimeout(20)

    def close(self) -> None:
        """Close the socket, and remove its files."""
        self._listener.close()
        os.unlink(self._path)
        if os.path.exists(self._input):
            os.unlink(self._input)

    def sent(self, text: bytes, options: tuple, no_backslash_escape: bool, environment: Optional[dict] = None) -> list:
        """Return the statements that the client sends of a text on its standard input, in its environment."""
        with open(self._input, "wb") as file:
            file.write(text)
        words = [self._client.command, "--no-defaults", "--user=root", f"--socket={self._path}", self._client.no_tls]
        with open(self._input, "rb") as file:
            ran = subprocess.Popen([*words, *options], stdin=file, stdout=subprocess.DEVNULL, stderr=subprocess.DEVNULL,
                                   cwd=os.path.dirname(self._path), env=environment)  # fmt: skip
        try:
            connection, _ = self._listener.accept()
            with connection:
                connection.settimeout(20)
                return self._served(connection, no_backslash_escape)
        finally:
            ran.kill()
            ran.wait()

    def _served(self, connection: socket.socket, no_backslash_escape: bool) -> list:
        status = _AUTOCOMMIT | (_NO_BACKSLASH_ESCAPES if no_backslash_escape else 0)
        done = b"\0\0\0" + struct.pack("<H", status) + b"\0\0"
        packets = connection.makefile("rb")
        _send(connection, 0, self._greeting(status))
        number, _ = _packet(packets)
        _send(connection, number + 1, done)
        found = []
        while True:
            _, packet = _packet(packets)
            if packet[:1] in (b"", bytes([_COM_QUIT])):
                return found
            if packet[0] == _COM_QUERY and packet[1:] not in _OWN:
                found.append(packet[1:])
            _send(connection, 1, _SYNTAX if packet[1:] == _OWN[1] else done)

    def _greeting(self, status: int) -> bytes:
        low, high = _CAPABILITIES & 0xFFFF, _CAPABILITIES >> 16
        fixed = struct.pack("<HBHHB10x", low, _UTF8MB4, status, high, 21)
        begin = b"\x0a" + self._client.version + b"\0" + struct.pack("<I", 7) + b"eightbyt\0"
        return begin + fixed + b"twelve bytes\0" + self._client.plugin + b"\0"


def _send(connection: socket.socket, number: int, packet: bytes) -> None:
    connection.sendall(struct.pack("<I", len(packet) | number << 24) + packet)


def _packet(packets) -> tuple:
    """Return the number of a packet and its content, or no content at the end."""
    head = packets.read(4)
    return (head[3], packets.read(int.from_bytes(head[:3], "little"))) if len(head) == 4 else (0, b"")
