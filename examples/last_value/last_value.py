# SPDX-License-Identifier: Apache-2.0 OR MIT
"""A board of last values: each publisher keeps one, and whoever comes reads them. What was read stays as it was."""
import numpy as np

import iox2_pubsub as ps

SPEED = np.dtype([("wheel", "u4"), ("rpm", "u4")])
LEFT, RIGHT = 0, 1

domain = ps.Domain(7, SPEED, history_size=1)
left, right = domain.publisher(), domain.publisher()
for publisher, speed in ((left, (LEFT, 12)), (left, (LEFT, 31)), (right, (RIGHT, 42))):
    publisher.send_copy(speed)


def read_all():
    """The last value of each wheel, where it lies. A subscriber has them at once."""
    return sorted((sample.array for sample in domain.subscriber()), key=lambda speed: speed["wheel"])


before = read_all()
print(f"left {before[LEFT]['rpm']} rpm, right {before[RIGHT]['rpm']} rpm")
left.send_copy((LEFT, 99))
now = read_all()
print(f"left {now[LEFT]['rpm']} rpm now, and {before[LEFT]['rpm']} where it was read before")
