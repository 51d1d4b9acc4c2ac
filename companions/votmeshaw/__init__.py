"""What the companion programs share. They need Python's standard library alone. Each imports this before all else: while it
imports the rest, SIGINT ends it without a traceback."""

import signal
import sys

# The version that a companion prints, which is that of the program beside which it stands.
VERSION = "2.0.0"

if signal.getsignal(signal.SIGINT) == signal.default_int_handler:
    signal.signal(signal.SIGINT, signal.SIG_DFL)

if sys.version_info < (3, 11):
    print(f"{sys.argv[0]}: Python 3.11 or later is needed, and this is {sys.version.split()[0]}", file=sys.stderr)
    sys.exit(2)
