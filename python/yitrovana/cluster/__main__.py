"""`python3 -m yitrovana.cluster JOB ..` runs a job text on a cluster of Dask.distributed; --help has its words."""
import os
import sys

# read when Dask is imported, here and in the workers that are started here: the answer's line is the only one of standard error
os.environ.setdefault('DASK_LOGGING__DISTRIBUTED', 'critical')

from .dask_job import main  # noqa: E402

if __name__ == '__main__':
    sys.exit(main(sys.argv[1:]))
