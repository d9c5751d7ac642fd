"""proxy.py SOCKET SERVER_SOCKET CONTROL: stands between a host and the server and cuts connections.

While the file CONTROL is there its words are the message of a call that the connection is cut at, from 0 (its BEGIN),
and how: before it is passed on, after that, or once it is answered, with the answer kept back. The call is the next
that begins to write. The file is removed once the cut is made. The word rollback has the server roll back where it is
told to commit. The word pool makes the proxy tell another process number than the server's, as poolers do."""
import os
import socket
import struct
import sys
import threading

PATH, SERVER, CONTROL = sys.argv[1:4]
BEGINS = b"BEGIN ISOLATION LEVEL READ COMMITTED"


def shut(*sockets):
    for s in sockets:
        try:
            s.shutdown(socket.SHUT_RDWR)
        except OSError:
            pass


def exactly(source, count):
    data = b""
    while len(data) < count:
        part = source.recv(count - len(data))
        if not part:
            raise OSError
        data += part
    return data


class Connection:
    def __init__(self, client):
        self.client, self.server = client, socket.socket(socket.AF_UNIX)
        self.server.connect(SERVER)
        self.at, self.mute, self.pool = None, False, False

    def control(self):
        try:
            return open(CONTROL).read().split()
        except OSError:
            return []

    def cut(self):
        try:
            os.remove(CONTROL)
        except OSError:
            pass
        shut(self.client, self.server)

    def to_server(self):
        size = exactly(self.client, 4)
        self.server.sendall(size + exactly(self.client, struct.unpack("!i", size)[0] - 4))
        while True:
            head = exactly(self.client, 5)
            body = exactly(self.client, struct.unpack("!i", head[1:])[0] - 4)
            words = self.control()
            if len(words) != 2:
                self.at = None
            elif self.at is not None:
                self.at += 1
            elif BEGINS in body:
                self.at = 0
            due = self.at is not None and self.at == int(words[0])
            if due and words[1] == "before":
                return self.cut()
            if words[1:] == ["rollback"] and body[1:8] == b"COMMIT\0":
                os.remove(CONTROL)
                body = body.replace(b"COMMIT", b"ABORT ")
            self.mute = self.mute or (due and words[1] == "answered")
            self.server.sendall(head + body)
            if due and words[1] == "after":
                return self.cut()

    def to_client(self):
        while data := self.server.recv(65536):
            if self.mute:
                return self.cut()
            if self.control() == ["pool"] and (place := data.find(b"K\0\0\0\x0c")) >= 0:
                data = data[:place + 5] + b"\0\0\0\x01" + data[place + 9:]
            self.client.sendall(data)

    def run(self, pump):
        try:
            pump()
        except OSError:
            pass
        shut(self.client, self.server)


listener = socket.socket(socket.AF_UNIX)
listener.bind(PATH)
listener.listen(50)
while True:
    try:
        connection = Connection(listener.accept()[0])
    except OSError:
        continue
    for pump in (connection.to_server, connection.to_client):
        threading.Thread(target=connection.run, args=(pump,), daemon=True).start()
