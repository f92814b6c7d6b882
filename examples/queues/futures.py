"""The study of lots.py over the processors of one machine.

    python3 futures.py [FILE]
"""

import concurrent.futures
import multiprocessing
import sys

from lots import study


def spread(call, items):
    context = multiprocessing.get_context("spawn")
    with concurrent.futures.ProcessPoolExecutor(mp_context=context) as pool:
        for done in concurrent.futures.as_completed([pool.submit(call, item) for item in items]):
            yield done.result()


if __name__ == "__main__":
    study(spread, sys.argv[1] if len(sys.argv) > 1 else "lots.jsonl")
