# SPDX-License-Identifier: Apache-2.0 OR MIT
"""Messages of different lengths: a scan has up to 4 ranges. A publisher whose memory grows lends longer ones, too."""
import numpy as np

import iox2_pubsub as ps


def scan(publisher, count):
    try:
        with publisher.loan_uninit(count) as loan:
            loan.array[:] = 0.5 * np.arange(1, count + 1)
            loan.send()
    except ps.LoanExceedsMaxLoanSize:
        print(f"{count} ranges are too many")


def show(subscriber):
    for ranges in subscriber:
        print(f"read {len(ranges.array)} ranges, the last is {ranges.array[-1]:.1f} m")


domain = ps.Domain(7, "f4", max_len=4)
publisher, subscriber = domain.publisher(), domain.subscriber()
for count in (3, 1, 1000):
    scan(publisher, count)
show(subscriber)
growing = domain.publisher(allocation_strategy=ps.AllocationStrategy.POWER_OF_TWO)
scan(growing, 1000)
show(subscriber)
