# SPDX-License-Identifier: Apache-2.0 OR MIT
"""Makes random calls on one domain from several threads: `random_calls.py SEED CALLS THREADS SCRIPT REPLIES`, as bindings/stress does in C++
and Rust. The extension has stress/lock_order.c in it, which writes down each call of the archive in its order. Ports are dropped and not
closed, since that finds a call wrong whose numbers are no longer live."""
import ctypes
import gc
import random
import sys
import threading

import numpy as np

import iox2_pubsub as ps

SEED, CALLS, THREADS = map(int, sys.argv[1:4])
KINDS = ("publishers", "subscribers", "loans", "blocked", "samples")
CHANNELS = 2


class Things:
    """What is live, of each kind."""

    def __init__(self):
        for kind in KINDS:
            setattr(self, kind, [])


class Pool(Things):
    """What threads hand each other."""

    def __init__(self):
        super().__init__()
        self.lock = threading.Lock()


class Worker(threading.Thread):
    """Makes calls, each with what it has or finds in the pool."""

    def __init__(self, domain, pool, number):
        super().__init__()
        self.domain, self.pool, self.own = domain, pool, Things()
        self.random, self.value, self.failed = random.Random(SEED * 1000 + number), number << 40, None

    def pick(self, kind):
        things = getattr(self.own, kind)
        return self.random.choice(things) if things else None

    def take(self, kind, things=None):
        things = getattr(things or self.own, kind)
        return things.pop(self.random.randrange(len(things))) if things else None

    def message(self):
        self.value += 1
        return np.full(8, self.value, "u8")

    def timeout(self):
        return self.random.choice((0, 0, 0, 0.0002))

    def publisher(self):
        strategy = self.random.choice(list(ps.BackpressureStrategy))
        self.own.publishers.append(self.domain.publisher(max_loaned_samples=self.random.randint(1, 3), backpressure_strategy=strategy))

    def subscriber(self):
        self.own.subscribers.append(self.domain.subscriber(buffer_size=self.random.randint(0, 3)))

    def drop_port(self):
        if self.random.random() < 0.2:
            self.take(self.random.choice(("publishers", "subscribers")))

    def loan(self):
        if (publisher := self.pick("publishers")) is not None:
            loan = publisher.loan_uninit(timeout=self.timeout())
            loan.array[:] = self.message()
            self.own.loans.append(loan)

    def send(self):
        if (loan := self.take("loans")) is not None:
            try:
                loan.send(timeout=self.timeout())
            except ps.PublisherIsBlocked:
                self.own.loans.append(loan)
                raise

    def send_copy(self):
        if (publisher := self.pick("publishers")) is not None:
            publisher.send_copy(self.message(), timeout=self.timeout())

    def discard(self):
        if (loan := self.take("loans")) is not None:
            loan.discard()

    def retry(self):
        if (blocked := self.take("blocked")) is not None and blocked.retry(timeout=self.timeout()) is None:
            self.own.blocked.append(blocked)

    def give_up(self):
        if (blocked := self.take("blocked")) is not None and blocked.give_up() is None:
            self.own.blocked.append(blocked)

    def receive(self):
        if (subscriber := self.pick("subscribers")) is not None:
            if (sample := subscriber.receive(timeout=self.timeout())) is not None:
                self.own.samples.append((sample, int(sample.array[0])))

    def release(self):
        if (pair := self.take("samples")) is not None:
            sample, value = pair
            assert (sample.array == value).all(), "a message is torn, or another one"
            if self.random.random() < 0.5:
                sample.release()

    def update(self):
        if (port := self.pick(self.random.choice(("publishers", "subscribers")))) is not None:
            port.update_connections()

    def ask(self):
        if (subscriber := self.pick("subscribers")) is not None:
            subscriber.has_samples()

    def deliver(self):
        if (loan := self.take("loans")) is not None:
            try:
                loan.deliver_offset_to_connection(self.channel(), self.connection(), timeout=self.timeout())
            except (ps.PublisherIsBlocked, ps.NoSuchChannel):
                self.own.loans.append(loan)
                raise

    def channel(self):
        return self.random.randrange(CHANNELS + 1)  # the last isn't there

    def connection(self):
        return self.random.randrange(6)

    def state(self):
        return self.random.choice((ps.CHANNEL_STATE_OPEN, ps.CHANNEL_STATE_OPEN, 1, ps.CHANNEL_STATE_CLOSED))

    def of_publisher(self):
        if (publisher := self.pick("publishers")) is not None:
            call = self.random.choice((publisher.close_channel, publisher.has_channel_state, publisher.has_disconnect_hint))
            call(self.channel(), self.connection(), self.state())
            publisher.get_connection_id_of(self.random.randrange(20))

    def of_subscriber(self):
        if (subscriber := self.pick("subscribers")) is not None:
            subscriber.set_channel_state(self.channel(), self.state())
            call = self.random.choice((subscriber.close_channel, subscriber.set_disconnect_hint, subscriber.at_least_one_channel_has_state))
            call(self.channel(), self.state())

    def exchange(self):
        with self.pool.lock:
            for kind in KINDS:
                one, to = (self.own, self.pool) if self.random.random() < 0.5 else (self.pool, self.own)
                if self.random.random() < 0.5 and (thing := self.take(kind, one)) is not None:
                    getattr(to, kind).append(thing)

    CALLS = (
        (publisher, 1), (subscriber, 1), (drop_port, 1), (loan, 6), (send, 6), (send_copy, 6), (discard, 1), (retry, 4), (give_up, 2),
        (receive, 12), (release, 8), (update, 1), (ask, 2), (exchange, 4),
        (deliver, 4), (of_publisher, 4), (of_subscriber, 4),
    )

    def run(self):
        calls, weights = zip(*self.CALLS)
        try:
            for call in self.random.choices(calls, weights, k=CALLS // THREADS):
                try:
                    call(self)
                except ps.SendBlocked as refused:
                    self.own.blocked.append(refused.blocked)
                except ps.Error:
                    pass
        except BaseException as failure:
            self.failed = failure


def main():
    sys.setswitchinterval(1e-5)
    order = ctypes.CDLL(ps._core.__file__)
    order.lock_order_begin(*(ctypes.c_char_p(path.encode()) for path in sys.argv[4:6]))
    domain = ps.Domain(
        7, np.dtype(("u8", 8)), max_publishers=4, max_subscribers=4, subscriber_max_buffer_size=3, subscriber_max_borrowed_samples=3,
        history_size=2, number_of_channels=CHANNELS, subscriber_expired_connection_buffer=4, publisher_max_loaned_samples=3,
        enable_safe_overflow=SEED % 2 == 0,
    )
    pool = Pool()
    workers = [Worker(domain, pool, number) for number in range(1, THREADS + 1)]
    for worker in workers:
        worker.start()
    for worker in workers:
        worker.join()
    failed = [worker.failed for worker in workers if worker.failed]
    del worker, workers, pool
    gc.collect()
    if failed:
        raise failed[0]
    order.lock_order_end()


main()
