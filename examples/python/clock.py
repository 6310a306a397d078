#!/usr/bin/env python3
"""A clock by asyncio: keys and new sizes come by `async for` while the time goes on, and q ends it."""
import asyncio
import time

import curspan


def draw(terminal: curspan.Terminal) -> None:
    screen = terminal.screen()
    screen.stdscr.erase()
    screen.stdscr.addstr(screen.lines // 2, max(0, screen.columns // 2 - 4), time.strftime('%H:%M:%S')[:screen.columns])
    screen.update_panels()
    screen.doupdate()


async def show_time(terminal: curspan.Terminal) -> None:
    while True:
        draw(terminal)
        await asyncio.sleep(1 - time.time() % 1)


async def main() -> None:
    with curspan.Terminal() as terminal:
        clock = asyncio.create_task(show_time(terminal))
        async for key in terminal:
            if key == 'q':
                break
            if key == 'resize':
                draw(terminal)
        clock.cancel()


if __name__ == '__main__':
    asyncio.run(main())
