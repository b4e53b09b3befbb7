"""The computation of threads.ray by Dask's threads: threads.py N prints the sum, and the seconds that N threads took."""
import sys
import time

import dask


@dask.delayed
def work(n):
    t = n
    for i in range(100):
        for j in range(10000):
            t = (t * 31 + i + j) % 1000003
    return t


tasks = [work(n) for n in range(16)]
start = time.perf_counter()
values = dask.compute(*tasks, scheduler="threads", num_workers=int(sys.argv[1]))
print("main value", sum(values))
print(f"{time.perf_counter() - start:.3f}")
