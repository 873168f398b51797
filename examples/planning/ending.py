"""How a script ends: with its own status, or with that of what the system refused."""
import os
import sys

FULL, FAULT, STOPPED = 4, 3, 130


def status_of(script, call):
    """The status that the call gives. If the system refuses something, the script says so on the error stream."""
    try:
        status = call()
        sys.stdout.flush()
        return status
    except BrokenPipeError:  # who reads has enough, as `head` has
        os.dup2(os.open(os.devnull, os.O_WRONLY), sys.stdout.fileno())
        return FULL
    except KeyboardInterrupt:
        return STOPPED
    except OSError as fault:
        print("%s: %s: %s" % (script, fault.filename, fault.strerror), file=sys.stderr)
        return FAULT
