#!/usr/bin/env python3
"""A relog of tests/hosts/chaos.py: chaos_relog.py ENDS AFTER LOG STORE..; as chaos_node.py it ends itself at a write. Status 0 where it ended."""

import json
import random
import sys

from chaos_node import Ends, hooked
from npss_registry.relog import relog


def main():
    number, behind, log, *stores = sys.argv[1:]
    hooked(Ends(int(number), behind == "1"), random.Random(0), repeated=0)
    done = relog(stores, log)
    print(json.dumps({"registered": done.registered, "lost": [row.registration.string for row in done.lost], "without_end": done.without_end}))


if __name__ == "__main__":
    main()
