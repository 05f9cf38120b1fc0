# SPDX-License-Identifier: Apache-2.0 OR MIT
"""Which processes have a domain, and which of them died. None of the tests looks at a clock."""
import asyncio
import os
import select
from itertools import islice

import pytest
from helpers import PATIENCE, end, fork, hear, kill, waiting, wants_processes

import iox2_pubsub as ps
from iox2_pubsub import NodeState, PortKind
from other_process import opened

wants_processes()
HOUR = 3600  # seconds, after which who waits looks for the dead
ALIVE = {"number_of_publishers": 1, "number_of_subscribers": 1, "number_of_loans": 1, "number_of_samples": 0}


def begin(start, name):
    """Another process that has some, and its node's id."""
    process = start("has_some", name)
    return process, int(hear(process))


def test_it_is_said_who_is_there(name, start):
    domain = opened(name)
    subscriber = domain.subscriber()
    process, node_id = begin(start, name)
    sample = subscriber.receive()
    assert sample.header.node_id == node_id != domain.node_id
    assert domain.nodes() == [
        ps.Node(domain.node_id, os.getpid(), NodeState.ALIVE, 0, 1, 0, 1), ps.Node(node_id, process.pid, NodeState.ALIVE, **ALIVE)
    ]
    mine, *others = domain.ports()
    assert mine == (subscriber.id, domain.node_id, PortKind.SUBSCRIBER)
    assert [(port.node_id, port.kind) for port in others] == [(node_id, PortKind.PUBLISHER), (node_id, PortKind.SUBSCRIBER)]
    assert others[0].id == sample.origin


def test_who_leaves_isn_t_dead(name, start):
    domain = opened(name)
    dead = domain.dead_nodes()
    process, _ = begin(start, name)
    end(process)
    assert len(domain.nodes()) == 1 and domain.cleanup_dead_nodes() == 0 == domain.dead_node_count
    assert dead.wait_one() is None and list(domain.dead_nodes(since=0)) == []


def test_the_dead_are_listed_with_what_they_had_until_it_is_given_back(name, start):
    domain = opened(name, reap_every=HOUR)
    process, node_id = begin(start, name)
    dead = domain.dead_nodes()
    kill(process)
    assert domain.nodes()[1] == ps.Node(node_id, process.pid, NodeState.DEAD, **ALIVE) and len(domain.ports()) == 2
    assert domain.dead_node_count == 0 and domain.cleanup_dead_nodes() == 1 and domain.cleanup_dead_nodes() == 0
    assert len(domain.nodes()) == 1 and domain.ports() == [] and domain.dead_node_count == 1
    assert [(node.node_id, node.pid, node.state) for node in dead] == [(node_id, process.pid, NodeState.DEAD)]
    assert dead.wait_one() is None and dead.wait_one(timeout=0.001) is None and list(domain.dead_nodes()) == []
    assert [node.node_id for node in domain.dead_nodes(since=0)] == [node_id] and list(domain.dead_nodes(since=1)) == []


def test_who_asks_looks_for_the_dead(name, start):
    domain = opened(name, reap_every=HOUR)
    dead = domain.dead_nodes()
    for number in range(1, 4):
        process, node_id = begin(start, name)
        kill(process)
        assert dead.wait_one().node_id == node_id and domain.dead_node_count == number


def test_a_death_ends_a_wait_for_it(name, start):
    domain = opened(name)
    with domain.dead_nodes() as dead, domain.dead_nodes() as other:
        for _ in range(3):
            process, node_id = begin(start, name)
            threads = [waiting(domain, one.wait_one, None) for one in (dead, other)]
            kill(process)
            assert [thread.result().node_id for thread in threads] == [node_id, node_id]
        assert dead.wait_one() is None
    follows = waiting(domain, lambda: [node.node_id for node in islice(domain.dead_nodes().follow(), 2)])
    killed = []
    for _ in range(2):
        process, node_id = begin(start, name)
        killed.append(node_id)
        kill(process)
    assert sorted(follows.result()) == sorted(killed)


def test_what_is_given_back_helps_threads_that_wait(name, start):
    publisher = opened(name, reap_every=HOUR).publisher(preallocated_samples=1)
    process = start("keeps", name)
    assert hear(process) == "is here"
    assert publisher.send_copy(1) == 1
    assert hear(process) == "has it"
    lends = waiting(publisher.domain, publisher.loan, None, None)
    waits = waiting(publisher.domain, publisher.domain.dead_nodes().wait_one, None)
    kill(process)
    assert publisher.domain.cleanup_dead_nodes() == 1
    lends.result().discard()
    assert waits.result().pid == process.pid


def test_a_look_for_the_dead_helps_threads_that_wait(name, start):
    publisher = opened(name, reap_every=HOUR).publisher(preallocated_samples=1)
    dead = publisher.domain.dead_nodes()
    process = start("keeps", name)
    assert hear(process) == "is here"
    assert publisher.send_copy(1) == 1
    assert hear(process) == "has it"
    lends = waiting(publisher.domain, publisher.loan, None, None)
    kill(process)
    assert dead.wait_one().pid == process.pid
    lends.result().discard()


def test_a_task_waits_for_a_death(name, start):
    domain = opened(name)

    async def hear_of_all():
        dead = domain.dead_nodes()
        for _ in range(3):
            process, node_id = begin(start, name)
            task = asyncio.create_task(dead.wait_one_async())
            await asyncio.sleep(0)
            kill(process)
            assert (await task).node_id == node_id
        process, node_id = begin(start, name)
        kill(process)
        async for node in dead:
            assert node.node_id == node_id
            domain.stop_waits()
        assert await dead.wait_one_async() is None

    asyncio.run(asyncio.wait_for(hear_of_all(), 5 * PATIENCE))
    assert domain.waiting == 0


def test_a_descriptor_tells_of_a_death(name, start):
    domain = opened(name, reap_every=HOUR)
    dead = domain.dead_nodes()
    assert select.select([dead], [], [], 0)[0] and dead.wait_one() is None and not select.select([dead], [], [], 0)[0]
    process, node_id = begin(start, name)
    kill(process)
    assert domain.cleanup_dead_nodes() == 1
    assert select.select([dead], [], [], 0)[0] and dead.wait_one().node_id == node_id and dead.wait_one() is None
    assert not select.select([dead], [], [], 0)[0]
    process, node_id = begin(start, name)
    kill(process)
    assert dead.wait_one().node_id == node_id and dead.wait_one() is None and not select.select([dead], [], [], 0)[0]


@pytest.mark.parametrize("close", ["port", "domain"])
def test_a_close_ends_a_wait_for_the_dead(name, close):
    domain = opened(name)
    dead = domain.dead_nodes()
    waits = waiting(domain, dead.wait_one, None)
    (dead if close == "port" else domain).close()
    for call in (waits.result, dead.wait_one, dead.fileno, lambda: list(dead)):
        with pytest.raises(ps.NotLive):
            call()
    assert not dead.is_open and domain.waiting == 0


def test_stopped_waits_end(name):
    domain = opened(name)
    waits = waiting(domain, domain.dead_nodes().wait_one, None)
    domain.stop_waits()
    assert waits.result() is None and list(domain.dead_nodes().follow()) == []


def test_nobody_else_has_a_domain_of_one_process():
    domain = ps.Domain(7, "i8")
    for call in (domain.nodes, domain.ports, domain.cleanup_dead_nodes, domain.dead_nodes, lambda: domain.node_id, lambda: domain.dead_node_count):
        with pytest.raises(ps.ProcessesNotShared, match="open it by a name"):
            call()
    domain.close()
    for call in (domain.nodes, domain.dead_nodes):
        with pytest.raises(ps.NoDomain):
            call()


def test_a_child_of_fork_is_told(name):
    domain = opened(name)
    dead = domain.dead_nodes()
    child = fork()
    if child == 0:
        try:
            for call in (domain.nodes, domain.ports, domain.cleanup_dead_nodes, domain.dead_nodes, dead.wait_one, dead.fileno, lambda: domain.node_id):
                with pytest.raises(ps.AfterFork):
                    call()
            os._exit(0)
        finally:
            os._exit(1)
    assert os.waitpid(child, 0)[1] == 0


@pytest.mark.parametrize("since, kind", [(-1, ValueError), (1 << 64, ValueError), ("1", TypeError), (1.5, TypeError)])
def test_a_number_of_the_dead_that_is_none_is_refused(name, since, kind):
    domain = opened(name)
    with pytest.raises(kind):
        domain.dead_nodes(since)
    assert list(domain.dead_nodes(since=1 << 63)) == []
