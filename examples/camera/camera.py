# SPDX-License-Identifier: Apache-2.0 OR MIT
"""A camera sends frames as arrays, and a thread draws each where it lies: `camera.py FRAMES.png`. It wants matplotlib."""
import sys
import threading

import matplotlib.pyplot as plt
import numpy as np

import iox2_pubsub as ps

HEIGHT, WIDTH, FRAMES = 120, 160, 6
FRAME = np.dtype([("number", "u4"), ("pixels", "u1", (HEIGHT, WIDTH, 3))])


def expose(pixels, number):
    """A ball that flies before a sky, written into the frame's slot."""
    y, x = np.mgrid[0:HEIGHT, 0:WIDTH]
    pixels[..., 0], pixels[..., 1], pixels[..., 2] = 40, 90 + y // 2, 200 - y // 2
    across, up = 15 + 26 * number, 95 - 50 * np.sin(np.pi * number / (FRAMES - 1))
    pixels[(x - across) ** 2 + (y - up) ** 2 < 144] = 250, 200, 40


def film(publisher):
    """Each frame is written in place; a full buffer holds the camera back."""
    for number in range(FRAMES):
        with publisher.loan(timeout=None) as loan:
            loan.array["number"] = number
            expose(loan.array["pixels"], number)
            loan.send()


domain = ps.Domain(7, FRAME, enable_safe_overflow=False)
publisher, subscriber = domain.publisher(), domain.subscriber()
camera = threading.Thread(target=film, args=(publisher,))
camera.start()
figure, axes = plt.subplots(1, FRAMES, figsize=(12, 2))
for axis in axes:
    with subscriber.receive(timeout=60) as sample:
        axis.imshow(sample.array["pixels"])
        axis.set_title(f"frame {sample.array['number']}")
        axis.set_axis_off()
camera.join()
figure.tight_layout()
figure.savefig(sys.argv[1])
print(f"drew {FRAMES} frames")
