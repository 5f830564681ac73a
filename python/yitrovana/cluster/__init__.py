"""The same jobs on a cluster of Dask.distributed, and arrays from and to `dask.array`. Nothing else of the package needs Dask."""
import sys
import warnings

DEEP = 10000  # frames that reading a text and Dask's own work on long chains may take


def run(job, scheduler, workers, threads, timeout, progress):
    """The lines of a job, by the cluster at an address or of a client, by the session's own client, or by threads started here."""
    from . import dask_job
    sys.setrecursionlimit(max(DEEP, sys.getrecursionlimit()))
    try:
        return dask_job.run(job.text.encode(), connection(scheduler, workers, threads, timeout or dask_job.TIMEOUT), shown(progress))
    except dask_job.Refused as why:
        from ..failures import failure
        raise failure(why.status, f'dask: {why.line}', job) from None


def connection(scheduler, workers, threads, timeout):
    """A context that gives a client whose workers have what they are to run."""
    import contextlib

    from dask.distributed import Client

    from . import dask_job
    client = scheduler if isinstance(scheduler, Client) else None if scheduler or workers or threads else own_client()
    if client is None:
        return dask_job.connected(scheduler, workers, threads, timeout, processes=False)
    dask_job.send(client)
    return contextlib.nullcontext(client)


def own_client():
    """The client that this session has made, or None."""
    from dask.distributed import default_client
    try:
        return default_client()
    except ValueError:
        return None


def shown(progress):
    """Whether Dask's own bar is shown, and where."""
    if not progress:
        return False
    if 'IPython' in sys.modules and sys.modules['IPython'].get_ipython() is not None:
        return 'notebook'
    return sys.stderr.isatty()


def to_dask(array):
    """The array of `dask.array` that has the same elements and the same blocks."""
    from ..text import Job
    from . import dask_job, expressions
    sys.setrecursionlimit(max(DEEP, sys.getrecursionlimit()))
    job = dask_job.read(Job({'.yitrovana.npy': array}).text.encode())
    number, = job.saves.values()
    made = dask_job.Arrays(dask_job.Blocks(job), dask_job.read_heads(job)).array(number)
    client = own_client()
    if client is not None:
        dask_job.send(client)
    expressions.remember(made, array)
    return made


def from_dask(array, path=None):
    """The same array of whole numbers: lazy where the language has its operations, else of the file at `path`, into which Dask computes it."""
    from ..refusals import refused
    from ..sources import TemporaryFile, open
    from . import dask_job, expressions
    if array.dtype.kind not in 'bui' or array.dtype == 'u8':
        raise refused('astype', f'dtype {array.dtype}')
    if any(length != length for length in array.shape):
        raise ValueError('the lengths of the array are not known before it is computed: call its compute_chunk_sizes()')
    taken = expressions.taken_over(array)
    if taken is not None:
        return taken
    client = own_client()
    if client is not None:
        dask_job.send(client)
    chunks = expressions.without_empty(array.chunks)
    if path is not None:
        store(array, path)
        return open(path, chunks)
    with TemporaryFile() as file:
        store(array, file.path)
        return file.opened(chunks)


def store(array, path):
    """Has Dask compute an array into a file."""
    import dask.array as da

    from . import dask_job
    part = dask_job.Part(path, array.shape)
    try:
        with warnings.catch_warnings():
            warnings.simplefilter('ignore', da.PerformanceWarning)
            da.store(array.astype('<i8'), part.target, lock=False)
        part.keep()
    finally:
        part.drop()
