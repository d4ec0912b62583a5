"""Each call of the system interrupted in turn, as by a signal."""
import os
import tempfile

from support.preloading import preload
from support.program import expect

MOST = 10000


def each_interruption(once, times):
    """Runs once(environment) with the first call interrupted so many times in a row, with the second, .., until a run makes fewer calls: how many
    were interrupted."""
    with tempfile.TemporaryDirectory() as folder:
        library = preload(folder, "interrupt")
        for n in range(1, MOST):
            report = os.path.join(folder, "interrupted-%d" % n)
            once(dict(os.environ, LD_PRELOAD=library, INTERRUPT_CALL=str(n), INTERRUPT_TIMES=str(times), INTERRUPT_REPORT=report))
            if not os.path.exists(report):
                return n - 1
    raise AssertionError("the process makes calls without end")


def is_told_whatever_is_interrupted(play, wanted, fewest):
    """play(environment) gives this, whichever call is interrupted, once or three times in a row; there are at least so many calls."""
    def once(environment):
        expect(play(environment), wanted, "what is told with call %s interrupted" % environment["INTERRUPT_CALL"])

    for times in (1, 3):
        expect(each_interruption(once, times) >= fewest, True, "enough calls were interrupted")
