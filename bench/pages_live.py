"""Tries what docs/HOSTING.md and docs/PROTOCOL.md say of a live room, on the program: its end, its lock, its workers, and what a connection answers. It ends with how many differences there were.

usage: pages_live.py PROGRAM FOLDER
"""
import json
import os
import shutil
import socket
import struct
import subprocess
import sys
import time

HERE = os.path.dirname(os.path.abspath(__file__))
sys.path.insert(0, os.path.join(os.path.dirname(HERE), "examples/live"))

from websocket import CLOSE, CONTINUED, PING, TEXT, Closed, WebSocket

PROGRAM, FOLDER = sys.argv[1:]
SEED, JOURNAL = os.path.join(os.path.dirname(HERE), "examples/room_a.json"), os.path.join(FOLDER, "room.journal")
HOST = "127.0.0.1"
CONNECT = {"cmd": "Connect", "game": "G", "name": "Ann", "items_handling": 7, "tags": ["NoText"], "version": {"class": "Version", "major": 0, "minor": 5, "build": 0}}
differences = 0


def same(name, found, wanted):
    global differences
    if found != wanted:
        differences += 1
        print("differs: %s: %s, and not %s" % (name, found, wanted))


def serve(*words):
    """A server that listens, and its port."""
    with socket.socket() as found:
        found.bind((HOST, 0))
        port = found.getsockname()[1]
    process = subprocess.Popen([PROGRAM, "serve", SEED, JOURNAL, "--bind", "%s:%d" % (HOST, port), *words], stdin=subprocess.DEVNULL, stdout=subprocess.PIPE, stderr=subprocess.PIPE, text=True)
    # It listens once it has read its files; the port itself is asked, so that no connection is spent.
    for _ in range(200):
        if process.poll() is not None or listens(port):
            break
        time.sleep(0.05)
    return process, port


def listens(port):
    with open("/proc/net/tcp", encoding="ascii") as file:
        return any(fields[1].endswith(":%04X" % port) and fields[3] == "0A" for fields in map(str.split, file))


def joined(port):
    """A connection over which RoomInfo came."""
    client = WebSocket(HOST, port)
    same("the first message", json.loads(client.receive(5) or "[{}]")[0].get("cmd"), "RoomInfo")
    return client


def end_of(client, wait=5.0):
    """The code with which the server ends a connection."""
    try:
        while client.receive(wait) is not None:
            pass
    except Closed as closed:
        return closed.code
    return None


def last_line(process):
    try:
        out, err = process.communicate(timeout=10)
    except subprocess.TimeoutExpired:
        process.kill()
        process.communicate()
        return "not ended"
    return "%d %s%s" % (process.returncode, out, err)


def framing(port):
    """What each connection sends, and how it ends."""
    too_long = "x" * (524288 + 1)
    cases = [
        ("a text of 524,289 bytes", lambda client: client.send(too_long), 1009),
        ("a message of more than 1,048,576 bytes", lambda client: client.send(too_long + too_long, piece=1 << 16), 1008),
        ("a frame without mask", lambda client: client.write(b"\x81\x02[]"), 1008),
        ("a text that isn't UTF-8", lambda client: client.put(0x80 | TEXT, b"\xff"), 1008),
        ("a reserved kind", lambda client: client.put(0x83, b""), 1008),
        ("a close frame", lambda client: client.put(0x80 | CLOSE, struct.pack("!H", 1000)), 1000),
        ("a close frame without a code", lambda client: client.put(0x80 | CLOSE, b""), 1005),
        ("a close frame with a code that is none", lambda client: client.put(0x80 | CLOSE, b"\x00\x00"), 1002),
    ]
    for name, send, code in cases:
        client = joined(port)
        try:
            send(client)
            same(name, end_of(client), code)
        except Closed as closed:
            same(name, closed.code, code)


def answers(port):
    """What a connection that goes on is answered."""
    client = joined(port)
    told = lambda: json.loads(client.receive(5) or "[{}]")[0]
    client.put(0x80 | 2, b"[]")
    same("a binary message", told().get("text"), "no JSON list")
    client.send(json.dumps([{"cmd": "Fly"}] * 1025))
    same("1,025 packets", told().get("text"), "more than 1024 packets")
    client.send("[" + " " * (524288 - 2) + "]")
    text = json.dumps([CONNECT]).encode()
    client.put(TEXT, text[:10])
    client.put(0x80 | PING, b"between")
    client.put(CONTINUED, text[10:20])
    client.put(0x80 | CONTINUED, text[20:])
    same("a Connect in fragments, behind a text of 524,288 bytes", told().get("cmd"), "Connected")
    same("the end", client.close(), 1000)


def no_handshake(port):
    for name, head in [("no upgrade", b"GET / HTTP/1.1\r\nHost: x\r\n\r\n"), ("no HTTP", b"hello\r\n\r\n"), ("another version", b"GET / HTTP/1.1\r\nUpgrade: websocket\r\nConnection: Upgrade\r\nSec-WebSocket-Version: 8\r\n\r\n")]:
        with socket.create_connection((HOST, port), timeout=5) as stream:
            stream.sendall(head)
            try:
                same(name, stream.recv(100), b"")
            except ConnectionResetError:
                pass


def main():
    os.makedirs(FOLDER)
    subprocess.run([PROGRAM, "new-room", SEED, JOURNAL], check=True, stdout=subprocess.DEVNULL)
    process, port = serve("--workers", "4")
    try:
        framing(port)
        answers(port)
        no_handshake(port)
        second = subprocess.run([PROGRAM, "drive", SEED, JOURNAL], stdin=subprocess.DEVNULL, capture_output=True, text=True)
        same("a second program on the journal", (second.returncode, second.stderr), (5, "device failed\n"))
        copy = os.path.join(FOLDER, "backup.journal")
        shutil.copyfile(JOURNAL, copy)
        same("a copy while the room runs", subprocess.run([PROGRAM, "drive", SEED, copy], stdin=subprocess.DEVNULL).returncode, 0)
        other = os.path.join(FOLDER, "other.journal")
        subprocess.run([PROGRAM, "new-room", SEED, other], check=True, stdout=subprocess.DEVNULL)
        taken = subprocess.run([PROGRAM, "serve", SEED, other, "--bind", "%s:%d" % (HOST, port)], stdin=subprocess.DEVNULL, capture_output=True, text=True, timeout=10)
        same("a port that is taken", (taken.returncode, taken.stderr), (5, "device failed\n"))
    finally:
        process.kill()
        process.communicate()
    # With one worker a second client waits until the first is gone; with two connections accepted the room ends.
    process, port = serve("--workers", "1", "--accept", "2")
    first = joined(port)
    stream = socket.create_connection((HOST, port), timeout=1)
    stream.sendall(b"GET / HTTP/1.1\r\n")
    try:
        same("a client beyond the workers", stream.recv(100), "nothing")
    except socket.timeout:
        pass
    first.close()
    stream.close()
    same("the end by --accept", last_line(process), "0 sessions 2\n")
    print("a live room was tried")
    return differences


if __name__ == "__main__":
    sys.exit(main())
