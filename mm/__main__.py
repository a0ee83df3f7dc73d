"""`python3 -m mm`."""

import sys

from mm.main import main

if __name__ == "__main__":
    try:
        status = main(sys.argv[1:])
    except KeyboardInterrupt:
        status = 130
    sys.exit(status)
