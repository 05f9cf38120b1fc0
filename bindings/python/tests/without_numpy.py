# SPDX-License-Identifier: Apache-2.0 OR MIT
"""What a Python without numpy and pytest runs."""
import asyncio
import sys
import threading

import iox2_pubsub as ps

assert "numpy" not in sys.modules
domain = ps.Domain(7, bytes, 64)
publisher, subscriber = domain.publisher(), domain.subscriber()
assert publisher.send_copy(b"hello") == 1
with subscriber.receive() as sample:
    assert bytes(sample) == b"hello"
loan = publisher.loan(3)
view = memoryview(loan)
try:
    loan.send()
    raise SystemExit("a loan with a view was sent")
except BufferError:
    view[:] = b"abc"
    view.release()
assert loan.send() == 1
threading.Timer(0.01, publisher.send_copy, [b"later"]).start()


async def main():
    got = [bytes(await subscriber.receive_async()) for _ in range(2)]
    assert got == [b"abc", b"later"], got


asyncio.run(main())
try:
    publisher.loan(999)
    raise SystemExit("too long a loan was lent")
except ps.LoanExceedsMaxLoanSize as refused:
    print("passed;", refused)
