"""`python3 -m zinduroi`, and the command `zinduroi`"""
import sys

from .command_line import main

if __name__ == "__main__":
    sys.exit(main())
