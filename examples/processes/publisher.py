# SPDX-License-Identifier: Apache-2.0 OR MIT
"""publisher.py [NAME]: sends readings to who runs in other terminals, until it is ended."""
import sys
import time

import iox2_pubsub as ps

name = sys.argv[1] if len(sys.argv) > 1 else "thermometer"
# Loses nothing: what finds no room is sent anew.
settings = {"service_id": 7, "enable_safe_overflow": False, "backpressure_strategy": ps.BackpressureStrategy.DISCARD_DATA}
domain = ps.Domain.open_or_create(name, "f8", type_name="celsius", **settings)
publisher = domain.publisher()
celsius = 20.0
while True:
    with publisher.loan_uninit() as loan:
        loan.array[...] = celsius  # written in its slot, where the subscriber reads it
        celsius += loan.send() > 0
    time.sleep(0.1)
