"""How ./check and ./order start and end: what goes wrong outside of plans and readings is said in one line. The status is then
1, and 2 where plans could not be judged."""
import os
import sys

from plans import NoVerdict


def start(main, say):
    """Ends with the status of main; `say` prints a line where the program says such things."""
    for stream in (sys.stdout, sys.stderr):
        stream.reconfigure(errors="backslashreplace")
    status = 1
    try:
        status = main(sys.argv[1:])
        sys.stdout.flush()
    except NoVerdict:
        say("plan.txt: cannot be judged")
        status = 2
    except BrokenPipeError:
        # nobody reads on, as before `head`
        os.dup2(os.open(os.devnull, os.O_WRONLY), sys.stdout.fileno())
    except OSError as error:
        say("%s: %s" % (error.filename, error.strerror))
    sys.exit(status)
