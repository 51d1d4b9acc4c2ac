"""Work on many items, some of them at once."""

import concurrent.futures
import queue
from collections.abc import Callable, Iterable, Iterator
from typing import TypeVar

It, Found = TypeVar("It"), TypeVar("Found")


def in_any_order(pool: concurrent.futures.Executor, work: Callable[[It], Found], items: Iterable[It],
                 most: int) -> Iterator[tuple[It, concurrent.futures.Future[Found]]]:
    """Each item with what work found of it, in the order in which that is done. So many at most wait, or are done and not taken, since
    what is found may be long."""
    done: queue.SimpleQueue[tuple[It, concurrent.futures.Future[Found]]] = queue.SimpleQueue()
    running = 0
    for item in items:
        if running == most:
            yield done.get()
            running -= 1
        pool.submit(work, item).add_done_callback(lambda future, item=item: done.put((item, future)))  # type: ignore[misc]
        running += 1
    for _ in range(running):
        yield done.get()
