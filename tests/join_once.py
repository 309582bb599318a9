"""A program that joins group 1 of a domain.

usage: join_once.py CLIENTS SOCKET    CLIENTS is the folder of the package castd

Ends with 0 once it is a member, and with the number of the error where it cannot connect.
"""
import sys

SECONDS = 10

sys.path.insert(0, sys.argv[1])
import castd  # noqa: E402

try:
    castd.Session(sys.argv[2], SECONDS).join(1, SECONDS)
except castd.Error as error:
    sys.exit(f"it does not come to be a member: {error}")
except OSError as error:
    sys.exit(error.errno)
