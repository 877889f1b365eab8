"""python3 -m dapnorm [--update] FILE.. runs golden tests without pytest."""
import sys

from .runner import main

if __name__ == "__main__":
    sys.exit(main())
