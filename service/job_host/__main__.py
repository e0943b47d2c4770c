"""`python3 -m job_host` is the command `jobhost`."""

import sys

from job_host.commands.command_line import main

if __name__ == "__main__":
    sys.exit(main())
