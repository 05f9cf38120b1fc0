# SPDX-License-Identifier: Apache-2.0 OR MIT
"""subscriber.py [NAME]: prints five readings. It sleeps until one is there."""
import sys

import iox2_pubsub as ps

name = sys.argv[1] if len(sys.argv) > 1 else "thermometer"
# All processes of a domain have the same settings.
settings = {"service_id": 7, "enable_safe_overflow": False, "backpressure_strategy": ps.BackpressureStrategy.DISCARD_DATA}
domain = ps.Domain.open_or_create(name, "f8", type_name="celsius", **settings)
subscriber = domain.subscriber()
for _ in range(5):
    with subscriber.receive(timeout=None) as sample:
        print(f"{sample.array:.1f} °C")  # read there
