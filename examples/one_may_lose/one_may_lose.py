# SPDX-License-Identifier: Apache-2.0 OR MIT
"""One subscriber may lose messages, another may not. The domain has no overflow, and a display closes its channel while it is busy, so
that sends pass it over. A send still waits for it if two messages arrive between its opening and its next receive. Fails if a
recorder misses a frame."""
import sys
import threading
import time

import iox2_pubsub as ps

FRAMES = 100


def show(display):
    """Shows one frame after the other, and what is sent meanwhile is none of them."""
    while (frame := display.receive(timeout=None)) is not None:
        display.close_channel(0, ps.CHANNEL_STATE_OPEN)  # busy: sends pass it over
        time.sleep(0.005)  # draws the frame
        frame.release()
        display.set_channel_state(0, ps.CHANNEL_STATE_OPEN)  # ready for the next one


def record(recorder, recorded):
    """Keeps the number of each frame."""
    while (frame := recorder.receive(timeout=None)) is not None:
        recorded.append(int(frame.array))
        frame.release()


domain = ps.Domain(7, "i4", enable_safe_overflow=False, subscriber_max_buffer_size=8)
recorder, display = domain.subscriber(), domain.subscriber(buffer_size=1)
camera, recorded = domain.publisher(), []
threads = [threading.Thread(target=show, args=(display,)), threading.Thread(target=record, args=(recorder, recorded))]
for thread in threads:
    thread.start()
for number in range(FRAMES):
    camera.send_copy(number)
    time.sleep(0.001)
domain.stop_waits()
for thread in threads:
    thread.join()
print(f"recorded {len(recorded)} of {FRAMES} frames")
sys.exit(recorded != list(range(FRAMES)))
