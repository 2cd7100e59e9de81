"""tests/hosts/machines/killed.py BLOCK DATA EXCL NAMES ANSWERS: examples/on_dask.py by two workers, one of which is killed."""

import os
import signal
import sys

from dask.distributed import Client, LocalCluster
from on_dask import Opened, blocks, write_answers


def main():
    block, data, exclusions, names, answers = sys.argv[1:]
    cluster = LocalCluster(n_workers=2, threads_per_worker=1, dashboard_address=None)
    with Client(cluster) as client, open(answers, "wb") as out:
        client.register_worker_plugin(Opened(data, exclusions))
        pids = list(client.run(os.getpid).values())
        for number, _ in enumerate(write_answers(client, "nfkc", blocks(names, int(block)), out)):
            if number == 0:
                os.kill(pids[0], signal.SIGKILL)
        after = list(client.run(os.getpid).values())
    if pids[0] in after:
        sys.exit("the worker was not killed")


if __name__ == "__main__":
    main()
