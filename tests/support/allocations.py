"""Each allocation refused in turn."""
import os
import tempfile
from concurrent.futures import ThreadPoolExecutor

from support.preloading import preload
from support.program import expect

MOST = 100000


def each_refusal(once, step=1):
    """What once(environment) gives with the first allocation refused, with the one so many after it, .., until a run asks for fewer. As many
    runs as there are processors go side by side."""
    with tempfile.TemporaryDirectory() as folder, ThreadPoolExecutor(os.cpu_count()) as pool:
        library = preload(folder, "refuse")

        def refused(n):
            report = os.path.join(folder, "refused-%d" % n)
            gave = once(dict(os.environ, LD_PRELOAD=library, REFUSE_ALLOC=str(n), REFUSE_REPORT=report))
            return gave, os.path.exists(report)

        given = []
        for first in range(1, MOST, step * os.cpu_count()):
            for gave, was_refused in pool.map(refused, range(first, first + step * os.cpu_count(), step)):
                if not was_refused:
                    return given
                given.append(gave)
    raise AssertionError("the process asks for memory without end")


def how_many(once):
    """How many allocations a run of once(environment) asks for, and what it gave."""
    with tempfile.TemporaryDirectory() as folder:
        count = os.path.join(folder, "count")
        gave = once(dict(os.environ, LD_PRELOAD=preload(folder, "refuse"), REFUSE_COUNT=count))
        with open(count) as file:
            return int(file.read()), gave


def ends_well_without_memory(tell, told):
    """A session that tells this whole, with each allocation refused in turn: it is the same, or ends with a line. tell plays it in an
    environment, and gives what came on standard output and error, and the status."""
    def once(environment):
        out, err, status = tell(environment)
        if status == 0:
            expect((out, err), (told, b""), "a whole session")
        else:
            expect((err, status), (b"rvdap: no memory\n", 1), "out of memory")
            expect(out, told[:len(out)], "what was told before it")

    expect(len(each_refusal(once)) > 5, True, "some allocations were refused")
