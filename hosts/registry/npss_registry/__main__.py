"""python3 -m npss_registry is the command `npss-registry`."""

import sys

from npss_registry.command import main

if __name__ == "__main__":
    sys.exit(main())
