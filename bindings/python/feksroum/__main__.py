"""`python -m feksroum show [FILE]`."""

import sys

from .show import main

if __name__ == "__main__":
    sys.exit(main())
