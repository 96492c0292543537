#!/usr/bin/env python3
"""Prints the time and the loudest sample of each block of a live stream, as it comes.

usage: listen.py HOST PORT
"""
import asyncio
import sys
from typing import AsyncIterator

import claxon


async def blocks(reader: asyncio.StreamReader) -> AsyncIterator[claxon.Block]:
    """The blocks of a FLAC stream, each when the last byte of its frame has come."""
    feed, data = claxon.Feed(), b"-"
    while data:
        data = await reader.read(1 << 16)
        if data:
            feed.feed(data)
        else:
            feed.close()
        for block in feed.blocks():
            yield block


async def listen(host: str, port: int) -> None:
    reader, writer = await asyncio.open_connection(host, port)
    async for block in blocks(reader):
        print(block.time, max(abs(sample) for sample in block.planar.tolist()), flush=True)
    writer.close()


if __name__ == "__main__":
    asyncio.run(listen(sys.argv[1], int(sys.argv[2])))
