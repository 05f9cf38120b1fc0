# SPDX-License-Identifier: Apache-2.0 OR MIT
"""Two threads share a domain: one sends readings, and the other prints them."""
import threading

import iox2_pubsub as ps


def print_all():
    for sample in subscriber.follow():
        print(f"{sample.array:.1f} °C")


domain = ps.Domain(7, "f8", enable_safe_overflow=False)  # loses nothing
publisher, subscriber = domain.publisher(), domain.subscriber()
printing = threading.Thread(target=print_all)
printing.start()
for tick in range(5):
    with publisher.loan(timeout=None) as loan:
        loan.array[...] = 20 + tick
        loan.send()
domain.stop_waits()  # so that the reader ends when nothing waits any more
printing.join()
