# SPDX-License-Identifier: Apache-2.0 OR MIT
"""A subscriber learns that no message came within its deadline. A message that came before it looks is in time."""
import numpy as np

import iox2_pubsub as ps

domain = ps.Domain(7, np.dtype([("rpm", "u4")]))
wheel, subscriber = domain.publisher(), domain.subscriber()
wheel.send_copy((12,))
while sample := subscriber.receive(timeout=0.02):
    rpm = sample.array["rpm"]
    print(f"{rpm} rpm")
    if rpm == 12:
        wheel.send_copy((31,))  # and then none
print("no speed in time: stop")
