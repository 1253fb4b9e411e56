"""Writes the lines of a file, and declarations in place of those that are symbols. Workers of Dask demangle them.

usage: on_dask.py FILE [SCHEDULER]     SCHEDULER: its address. Without it a scheduler and two workers are started here
"""
import sys

import cosvigle
from distributed import Client, LocalCluster

PART = 500_000  # bytes of whole lines that a worker gets at once


def main():
    where = sys.argv[2:] or [LocalCluster(n_workers=2, threads_per_worker=1, host="127.0.0.1", dashboard_address=None)]
    with Client(*where) as client, open(sys.argv[1], "rb") as file:
        parts = iter(lambda: b"".join(file.readlines(PART)), b"")
        for made in [client.submit(cosvigle.filter, part, pure=False) for part in parts]:
            sys.stdout.buffer.write(made.result())


if __name__ == "__main__":
    main()
