"""A server on 127.0.0.1 that logs anyone in and answers every query with one result, given as bytes."""
import socket
import struct
import threading


def packet(kind, body):
    """One TDS packet, end of message: type, status, length, SPID 51, id 1, window 0."""
    return struct.pack('>BBHHBB', kind, 1, 8 + len(body), 51, 1, 0) + body


def in_one(kind, body):
    return [packet(kind, body)]


def counted(text):
    """A name counted in UTF-16 units by one byte."""
    return bytes((len(text),)) + text.encode('utf-16-le')


def prelogin():
    """The server's prelogin answer: version 12.0, encryption not supported, MARS off."""
    options = ((0, bytes((12, 0, 0, 0, 0, 0))), (1, b'\x02'), (2, b'\x00'), (3, b''), (4, b'\x00'))
    at, table, data = 5 * len(options) + 1, b'', b''
    for token, part in options:
        table += struct.pack('>BHH', token, at + len(data), len(part))
        data += part
    return table + b'\xff' + data


def done(rows):
    return b'\xfd' + struct.pack('<HHQ', 0x10, 0xC1, rows)


def logged_in():
    name = counted('Microsoft SQL Server')
    acknowledged = b'\x01' + bytes((0x74, 0, 0, 4)) + name + bytes((12, 0, 0, 0))
    size = b'\x04' + counted('4096') + counted('4096')
    return b'\xad' + struct.pack('<H', len(acknowledged)) + acknowledged + b'\xe3' + struct.pack('<H', len(size)) + size + done(0)


def result(columns, rows):
    """COLMETADATA for nullable columns named x, x2, x3 .., the rows, and the end."""
    named = (struct.pack('<IH', 0, 9) + column + counted('x%d' % number if number > 1 else 'x') for number, column in enumerate(columns, 1))
    return b'\x81' + struct.pack('<H', len(columns)) + b''.join(named) + b''.join(b'\xd1' + row for row in rows) + done(len(rows))


class Server:
    """Answers one client. `greeting` is its prelogin answer, `packets` makes the packets of a message. `talk` holds what was sent: (from the client?, bytes), a whole packet each."""

    def __init__(self, answer, greeting=None, packets=in_one):
        self.answer, self.packets = answer, packets
        self.greeting = prelogin() if greeting is None else greeting
        self.talk = []
        self.listener = socket.create_server(('127.0.0.1', 0))
        self.listener.settimeout(20)
        self.port = self.listener.getsockname()[1]
        self.thread = threading.Thread(target=self.serve, daemon=True)
        self.thread.start()

    def receive(self, client, count):
        data = b''
        while len(data) < count:
            more = client.recv(count - len(data))
            if not more:
                return None
            data += more
        return data

    def send(self, client, body):
        for one in self.packets(4, body):
            self.talk.append((False, one))
            client.sendall(one)

    def serve(self):
        try:
            client, _ = self.listener.accept()
            with client:
                client.settimeout(20)
                self.converse(client)
        except OSError:
            pass
        finally:
            self.listener.close()

    def converse(self, client):
        message = b''
        while (head := self.receive(client, 8)) is not None:
            kind, status, length = struct.unpack('>BBH', head[:4])
            body = self.receive(client, length - 8)
            if body is None:
                return
            self.talk.append((True, head + body))
            message += body
            if not status & 1:
                continue
            if kind == 0x12:
                self.send(client, self.greeting)
            elif kind == 0x10:
                self.send(client, logged_in())
            elif kind in (1, 3) and 'select' in message.decode('utf-16-le', 'replace'):
                self.send(client, self.answer)
            else:
                self.send(client, done(0))
            message = b''

    def close(self):
        self.listener.close()
        self.thread.join(5)
