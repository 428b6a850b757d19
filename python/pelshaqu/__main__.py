"""`python3 -m pelshaqu` is the command."""

import sys

from .command import main

if __name__ == "__main__":
    sys.exit(main())
