"""The command line of the package."""

import sys

from ._cli import main

if __name__ == "__main__":
    sys.exit(main())
