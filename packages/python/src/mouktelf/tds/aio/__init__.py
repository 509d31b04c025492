"""`mouktelf.tds` for asyncio: one loop, and no thread.

    connection = await aio.connect("127.0.0.1", port=1433, user="sa", password="..", timeout=30)
    async with connection, connection.cursor() as cursor:
        await cursor.execute("select name from users where id = %s", (7,))
        print(await cursor.fetchall())

A task that is cancelled while it waits for its answer cancels its request, and the connection lives on."""

from .connection import Connection, Cursor, connect
from .pool import Pool, Pooled

__all__ = ["Connection", "Cursor", "Pool", "Pooled", "connect"]
