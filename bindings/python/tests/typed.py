# SPDX-License-Identifier: Apache-2.0 OR MIT
"""What mypy --strict has to take, and by the ignored lines what it has to refuse."""
import iox2_pubsub as ps

domain = ps.Domain(7, "f4", 8, history_size=1, backpressure_strategy=ps.BackpressureStrategy.DISCARD_DATA)
domain.settings.history_size + 1
publisher, subscriber = domain.publisher(degradation=ps.DegradationAction.FAIL), domain.subscriber(buffer_size=1)
receivers: int = publisher.send_copy([1.0, 2.0])
with publisher.loan(3) as loan:
    loan.send(timeout=None)
sample = subscriber.receive()
sample.array  # type: ignore[union-attr]
if sample is not None:
    length: int = len(sample)
    node: int = sample.header.node_id
    sample.send()  # type: ignore[attr-defined]
for each in subscriber.follow(timeout=0.0):
    each.release()
publisher.send_copy(1.0, 2.0, 3.0)  # type: ignore[call-arg]
publisher.send_copy(1.0, timeout="1")  # type: ignore[arg-type]
ps.Domain(7, bytes, 8, history=1)  # type: ignore[call-arg]
domain.publisher(allocation_strategy=1)  # type: ignore[arg-type]
try:
    publisher.send_copy([1.0], timeout=0)
except ps.SendBlocked as error:
    given_up: int | None = error.blocked.give_up()
warned: list[ps.Warning] = domain.warnings
text, missed = domain.recording()
named = ps.Domain.open_or_create("My/Types", "f4", service_id=7)
pids: list[int] = [node.pid for node in named.nodes()] + [node.pid for node in named.dead_nodes(since=0)]
kinds: list[ps.PortKind] = [port.kind for port in named.ports()]
told: int = named.notifier().notify(7)
listener = named.listener()
ids: frozenset[int] = listener.wait_all(timeout=1.0)
one: int = listener.wait_one()  # type: ignore[assignment]
named.notifier().notify("7")  # type: ignore[arg-type]
slots: int | None = publisher.settings.preallocated_samples


async def read() -> int:
    async for one in subscriber:
        print(one.array)
    async for event_id in listener:
        print(event_id + 1)
    late = await subscriber.receive_async()
    late.release()  # type: ignore[union-attr]
    async with subscriber:  # type: ignore[attr-defined]
        pass
    return await publisher.send_copy_async([1.0]) + await (await publisher.loan_async(1)).send_async()
