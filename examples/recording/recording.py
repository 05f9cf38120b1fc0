# SPDX-License-Identifier: Apache-2.0 OR MIT
"""Records what it calls, and prints the recording, which tools/replay runs again."""
import numpy as np

import iox2_pubsub as ps

READING = np.dtype([("number", "u4"), ("millidegrees", "u4")])


def send(publisher, subscriber):
    """Sends two readings. The second waits for a subscriber that is full."""
    with publisher.loan() as loan:
        loan.array["number"], loan.array["millidegrees"] = 1, 20500
        loan.send()
    try:
        publisher.send_copy((2, 21000), timeout=0)
    except ps.SendBlocked as error:
        subscriber.receive().release()
        error.blocked.retry()


# Of each message all 8 bytes are recorded, and up to 200 commands.
domain = ps.Domain(7, READING, subscriber_max_buffer_size=1, enable_safe_overflow=False, record=(200, READING.itemsize))
subscriber, publisher = domain.subscriber(), domain.publisher()
send(publisher, subscriber)
late = domain.subscriber()
recording = domain.recording()
assert recording.missed == 0
print(recording.text, end="")
