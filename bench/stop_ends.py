"""How a run of `apply` ends that stops.py has stopped, and what stands at its output before."""

import collections

Ended = collections.namedtuple("Ended", "status out err")
DISK, WRITE = Ended(5, b"", b"debplan: journal: E20 Disk\n"), Ended(5, b"", b"debplan: output: E26 Write\n")
OLD = b"the output of before\n"
SECONDS = 600
