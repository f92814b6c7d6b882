"""The study of lots.py over workers of Dask: a cluster on this machine, or the one whose scheduler is
named. Each worker must have the package, and lots.py is sent to it.

    python3 dask_cluster.py [FILE [SCHEDULER]]
"""

import sys
from pathlib import Path

from dask.distributed import Client, LocalCluster, as_completed

from lots import study


def main():
    path = sys.argv[1] if len(sys.argv) > 1 else "lots.jsonl"
    given = sys.argv[2] if len(sys.argv) > 2 else LocalCluster(threads_per_worker=1, dashboard_address=None)
    with Client(given) as client:
        client.upload_file(str(Path(__file__).with_name("lots.py")))

        def spread(call, items):
            for done in as_completed(client.map(call, items, pure=False)):
                yield done.result()

        study(spread, path)


if __name__ == "__main__":
    main()
