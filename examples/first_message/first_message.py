# SPDX-License-Identifier: Apache-2.0 OR MIT
import iox2_pubsub as ps

domain = ps.Domain(7, "f8")  # messages are one float
publisher, subscriber = domain.publisher(), domain.subscriber()
with publisher.loan() as loan:
    loan.array[...] = 21.5  # written in its slot
    receivers = loan.send()
for sample in subscriber:
    print(f"{sample.array:.1f} °C, read by {receivers}")  # read there
