"""The desk's process: reads the day, serves, and ends in order."""
from __future__ import annotations

import argparse
import asyncio
import logging
import re
import sys
from collections.abc import AsyncIterator
from contextlib import suppress
from pathlib import Path

from aiohttp import web

from kidrofemba.common.companion import Refused
from kidrofemba.desk import api, pages
from kidrofemba.desk.door_line import DoorLine
from kidrofemba.desk.http import DESK, LOG, MOST_BODY_BYTES, around, give_headers
from kidrofemba.desk.look import Looks
from kidrofemba.desk.network import Day, Files
from kidrofemba.desk.sales import Sales
from kidrofemba.desk.state import Desk, Settings, paths_file
from kidrofemba.desk.store import Store
from kidrofemba.desk.tail import Tail

_READ_S = 0.25
_FINISH_S = 1.0
_ADDRESS = re.compile(r"(.+):([0-9]{1,5})")


def made_app(desk: Desk) -> web.Application:
    """The application of a desk."""
    app = web.Application(middlewares=[around], client_max_size=MOST_BODY_BYTES)
    app[DESK] = desk
    app.on_response_prepare.append(give_headers)
    app.cleanup_ctx.append(_background)
    app.add_routes(api.routes() + pages.routes())
    app.router.add_static("/static/", paths_file("static"))
    return app


async def _background(app: web.Application) -> AsyncIterator[None]:
    """What goes on beside requests: the journal is read on, and open lines are finished."""
    desk = app[DESK]
    assert isinstance(desk, Desk)
    await desk.refresh_names()
    tasks = [asyncio.ensure_future(desk.keep_reading(_READ_S)),
             asyncio.ensure_future(desk.sales.keep_finishing(_FINISH_S))]
    for task in tasks:
        task.add_done_callback(_end_on_fault)
    yield
    for task in tasks:
        task.cancel()
        with suppress(asyncio.CancelledError, Exception):
            await task
    await desk.looks.end()
    desk.pool.shutdown(cancel_futures=True)
    desk.sales.door.leave()
    desk.sales.close()


def _end_on_fault(task: asyncio.Task[None]) -> None:
    """Ends the process where what must go on has failed: it is started again by its unit."""
    if not task.cancelled() and task.exception() is not None:
        LOG.error("the desk ends: %s", task.exception())
        asyncio.get_running_loop().call_soon(sys.exit, 1)


def serve(options: argparse.Namespace, program: Path) -> int:
    """Serves until SIGTERM or SIGINT."""
    address = _ADDRESS.fullmatch(options.listen)
    if address is None or not 0 < int(address[2]) < 65536:
        raise Refused("words", f"--listen {options.listen}", "is no HOST:PORT")
    logging.basicConfig(level=logging.INFO, stream=sys.stderr,
                        format="%(asctime)s %(name)s %(levelname)s %(message)s")
    logging.getLogger("aiohttp.access").setLevel(logging.WARNING)
    files = Files(options.network.absolute(), options.trains.absolute(), options.base.absolute(),
                  options.journal.absolute(), program)
    day = Day(files)
    tail = Tail(files.journal, files.network.read_bytes(), files.base.read_bytes())
    tail.read_on()
    store = Store(options.store)
    settings = Settings(options.secure, options.offer_minutes * 60, options.streams)

    async def made() -> web.Application:
        sales = Sales(store, DoorLine(options.socket, options.patience), tail, options.socket.stem)
        return made_app(Desk(day, sales, Looks(files, options.look_seconds), settings))

    LOG.info("serves http://%s", options.listen)
    try:
        web.run_app(made(), host=address[1].strip("[]"), port=int(address[2]),
                    print=lambda *_: None, access_log=None, shutdown_timeout=2.0)
    except OSError as wrong:
        raise Refused(options.listen, "", wrong.strerror or str(wrong)) from None
    return 0
