"""The other programs, asked: tsql (FreeTDS) and pytds as clients of a server here, tshark on a capture file of a talk. Each has 30 seconds."""
import os
import pathlib
import struct
import subprocess
import tempfile

import pytds

SECONDS = 30
WORDS = dict(os.environ, TDSVER='7.4', LC_ALL='C.UTF-8')


def tsql_lines(server):
    """What tsql prints: a line of names, and one for each row. None where it prints no names."""
    words = ['tsql', '-H', '127.0.0.1', '-p', str(server.port), '-U', 'sa', '-P', 'x', '-o', 'q']
    run = subprocess.run(words, input='select 1\ngo\nexit\n', capture_output=True, text=True, timeout=SECONDS, env=WORDS)
    server.close()
    lines = run.stdout.split('\n')
    return (lines[:-1], '') if lines[0].startswith('x') else (None, (run.stdout + run.stderr).strip())


def with_pytds(server, use):
    """What `use` makes of a connection, or the error that it ends with."""
    try:
        connection = pytds.connect(dsn='127.0.0.1', port=server.port, user='sa', password='x', autocommit=True, timeout=SECONDS, login_timeout=SECONDS)
        answer = use(connection)
        connection.close()
    except pytds.Error as error:
        answer = '%s: %s' % (type(error).__name__, error)
    server.close()
    return answer


def fetched(connection):
    """The rows of one question, each a tuple."""
    cursor = connection.cursor()
    cursor.execute('select 1')
    return cursor.fetchall()


def capture(talk):
    """A capture file of the talk, as one TCP connection from port 40000 to 1433."""
    place, seconds = {True: 1, False: 1}, 0
    file = struct.pack('<IHHiIII', 0xA1B2C3D4, 2, 4, 0, 0, 65535, 101)

    def segment(client, flags, data):
        nonlocal file, seconds
        seconds += 1
        ports = (40000, 1433) if client else (1433, 40000)
        tcp = struct.pack('>HHIIBBHHH', *ports, place[client], place[not client], 0x50, flags, 65535, 0, 0) + data
        ip = struct.pack('>BBHHHBBHII', 0x45, 0, 20 + len(tcp), seconds, 0x4000, 64, 6, 0, 0x7F000001, 0x7F000001)
        place[client] += len(data) + (flags & 2) // 2
        file += struct.pack('<IIII', seconds, 0, len(ip + tcp), len(ip + tcp)) + ip + tcp

    segment(True, 0x02, b'')
    segment(False, 0x12, b'')
    segment(True, 0x10, b'')
    for client, data in talk:
        segment(client, 0x18, data)
    return file


def tshark(talk):
    """All that tshark says of the talk."""
    with tempfile.TemporaryDirectory() as folder:
        path = pathlib.Path(folder) / 'talk.pcap'
        path.write_bytes(capture(talk))
        words = ['tshark', '-n', '-r', str(path), '-d', 'tcp.port==1433,tds', '-V', '-Y', 'tds']
        return subprocess.run(words, capture_output=True, text=True, timeout=SECONDS, env=WORDS).stdout
