"""A client by python3-websockets for bench/clients.py: sends each line of its input as a text message, and prints what comes, each line with the milliseconds of its clock. It connects again until its input ends.

usage: clients_websockets.py URL
"""
import asyncio
import sys
import time

import websockets


def tell(kind, rest=""):
    print("%d %s %s" % (time.time() * 1000, kind, rest), flush=True)


async def send_lines(lines, socket):
    while True:
        line = await lines.get()
        if line is None:
            await socket.close()
            return
        await socket.send(line)


async def talk(url, lines):
    """Talks over one connection; whether the input is at its end."""
    try:
        async with websockets.connect(url, max_size=None) as socket:
            tell("open", "websockets %s" % websockets.version.version)
            sender = asyncio.ensure_future(send_lines(lines, socket))
            try:
                async for text in socket:
                    tell("text", text)
            finally:
                sender.cancel()
            tell("closed", socket.close_code)
            return sender.done() and not sender.cancelled()
    except (OSError, websockets.WebSocketException) as error:
        tell("closed", type(error).__name__)
    return False


async def main(url):
    lines = asyncio.Queue()
    loop = asyncio.get_running_loop()

    async def read():
        reader = asyncio.StreamReader(limit=1 << 24)
        await loop.connect_read_pipe(lambda: asyncio.StreamReaderProtocol(reader), sys.stdin)
        while line := await reader.readline():
            await lines.put(line.decode().rstrip("\n"))
        await lines.put(None)

    reading = asyncio.ensure_future(read())
    while not await talk(url, lines) and not reading.done():
        await asyncio.sleep(0.1)


asyncio.run(main(sys.argv[1]))
