"""The command, as `python3 -m mdeh`."""
import sys

from .cli import main

if __name__ == "__main__":
    sys.exit(main())
