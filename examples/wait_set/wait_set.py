# SPDX-License-Identifier: Apache-2.0 OR MIT
"""One thread waits for readings and for commands, which are two domains. It tells where no reading came in time, then ticks, and ends by
a command. Python's selectors sleep until one of several ports has something, or a time is up."""
import selectors
import threading
import time

import iox2_pubsub as ps

READINGS, TICKS, INTERVAL = 3, 3, 0.005


def sense(sensor):
    for number in range(READINGS):
        sensor.send_copy(20 + number / 2)
        time.sleep(INTERVAL)


weather, control = ps.Domain(7, "f8", enable_safe_overflow=False), ps.Domain(8, bytes, 8)
thermometer = weather.subscriber()
commander, commands = control.publisher(), control.subscriber()
either = selectors.DefaultSelector()
for subscriber in (thermometer, commands):
    either.register(subscriber, selectors.EVENT_READ)
sensor = threading.Thread(target=sense, args=(weather.publisher(),))
sensor.start()
read, ticked, most = 0, 0, None  # seconds that it sleeps at most
while (command := commands.receive()) is None:
    is_time_up = not either.select(most)
    for reading in thermometer:
        print(f"{reading.array:.1f} °C")
        read += 1
        if read == READINGS:
            most = INTERVAL * 4
    if is_time_up and most > INTERVAL:
        print("no reading came in time")
        most = INTERVAL
    elif is_time_up:
        ticked += 1
        print(f"tick {ticked}")
        if ticked == TICKS:
            commander.send_copy(b"stop")
if bytes(command) == b"stop":
    print("stopped")
sensor.join()
