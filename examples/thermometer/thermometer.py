# SPDX-License-Identifier: Apache-2.0 OR MIT
"""Sends readings to two subscribers, and prints what each reads."""
import numpy as np

import iox2_pubsub as ps

READING = np.dtype([("number", "u4"), ("celsius", "f8")], align=True)

domain = ps.Domain(7, READING)
publisher = domain.publisher()
subscribers = [domain.subscriber(), domain.subscriber()]
for number in range(1, 4):
    with publisher.loan() as loan:
        loan.array["number"], loan.array["celsius"] = number, 20 + number / 2
        print(f"sent reading {number} to {loan.send()}")
    for at, subscriber in enumerate(subscribers):
        for sample in subscriber:
            print(f"subscriber {at} read {sample.array['number']}: {sample.array['celsius']:.1f} °C")
