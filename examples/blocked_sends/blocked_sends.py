# SPDX-License-Identifier: Apache-2.0 OR MIT
"""Where nothing may be lost, a send waits for a subscriber whose buffer is full. It is retried, or given up."""
import iox2_pubsub as ps

domain = ps.Domain(7, "i4", enable_safe_overflow=False, subscriber_max_buffer_size=1)
publisher, subscriber = domain.publisher(), domain.subscriber()


def send(number):
    """Sends without waiting, and returns the send that is blocked."""
    try:
        print(number, "reached", publisher.send_copy(number, timeout=0))
    except ps.SendBlocked as error:
        print(number, "waits for", "the subscriber" if error.blocked.subscriber == subscriber.id else "another")
        return error.blocked


def read_one():
    with subscriber.receive() as sample:
        print("read", sample.array)


send(1)
second = send(2)
if second.retry() is None:
    print("2 still waits")
read_one()
print("2 reached", second.retry())
third = send(3)
print("3 was given up, and reached", third.give_up())
read_one()
