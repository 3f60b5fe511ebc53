"""Stands between clients and a broker, cuts their connections, and delays what it carries. Usage: relay.py HOST PORT CUTS
[MILLISECONDS] prints its own port, cuts so often once the talk is under way, carries each byte so much later, and goes on until
its input ends."""

import asyncio
import random
import sys

# So many bytes are more than a Connect, a Subscribe and their answers.
UNDER_WAY = 1000


class Relay:
    def __init__(self, host, port, delay=0.0):
        self.broker = host, port
        self.delay = delay
        self.ways = set()
        self.cuts = self.carried = 0

    async def __aenter__(self):
        self.server = await asyncio.start_server(self.serve, "127.0.0.1", 0)
        self.port = self.server.sockets[0].getsockname()[1]
        return self

    async def __aexit__(self, *_):
        self.server.close()
        self.cut()

    async def serve(self, reader, writer):
        there, back = await asyncio.open_connection(*self.broker)
        self.ways.add(writer)
        self.ways.add(back)
        try:
            await asyncio.gather(self.carry(reader, back), self.carry(there, writer))
        except asyncio.CancelledError:
            # (at the relay's end, of which Python would tell at length)
            pass

    async def carry(self, reader, writer):
        late = asyncio.Queue()
        await asyncio.gather(self.take(reader, late), self.give(late, writer))

    # (no bytes are the end)
    async def take(self, reader, late):
        data = b"?"
        while data:
            try:
                data = await reader.read(1000)
            except OSError:
                data = b""
            late.put_nowait((asyncio.get_running_loop().time() + self.delay, data))

    async def give(self, late, writer):
        try:
            while True:
                at, data = await late.get()
                await asyncio.sleep(at - asyncio.get_running_loop().time())
                if not data:
                    break
                writer.write(data)
                await writer.drain()
                self.carried += len(data)
        except OSError:
            pass
        finally:
            writer.close()

    def cut(self):
        self.cuts += bool(self.ways)
        for way in self.ways:
            way.transport.abort()
        self.ways.clear()


async def main(host, port, cuts, delay="0"):
    # (the same cuts each time)
    chance = random.Random(5)
    async with Relay(host, int(port), int(delay) / 1000) as relay:
        print(relay.port, flush=True)
        while relay.cuts < int(cuts):
            await asyncio.sleep(chance.uniform(0.1, 0.5))
            if relay.carried > UNDER_WAY:
                relay.cut()
        await asyncio.to_thread(sys.stdin.read)


if __name__ == "__main__":
    asyncio.run(main(*sys.argv[1:]))
