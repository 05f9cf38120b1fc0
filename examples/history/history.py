# SPDX-License-Identifier: Apache-2.0 OR MIT
"""A publisher keeps its last 3 messages for subscribers that come later, which have them at once."""
import iox2_pubsub as ps


def show(who, subscriber):
    print(who, "reads", *(f"{sample.array:.1f}" for sample in subscriber))


domain = ps.Domain(7, "f8", history_size=3, subscriber_max_buffer_size=8)
publisher = domain.publisher()
for metres in range(1, 6):
    publisher.send_copy(metres)
late, short_of_room = domain.subscriber(), domain.subscriber(buffer_size=2)
show("a late subscriber", late)
show("one with a buffer of 2", short_of_room)
