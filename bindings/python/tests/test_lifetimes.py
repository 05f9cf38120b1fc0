# SPDX-License-Identifier: Apache-2.0 OR MIT
"""A domain lives as long as something of it, and no longer."""
import gc
import weakref

import pytest

import iox2_pubsub as ps


def ports(domain):
    return domain.publisher(), domain.subscriber()


def discarded(domain):
    domain.publisher().loan().discard()


def dropped(domain):
    domain.publisher().loan()


def received(domain):
    publisher, subscriber = ports(domain)
    publisher.loan().send()
    with subscriber.receive():
        pass


def viewed(domain):
    publisher, subscriber = ports(domain)
    publisher.send_copy(1)
    assert subscriber.receive().array == 1


def blocked(domain):
    publisher, subscriber = ports(domain)
    with pytest.raises(ps.SendBlocked):
        for number in range(2):
            publisher.send_copy(number, timeout=0)
    assert subscriber.is_open


def waited(domain):
    assert domain.subscriber().receive(timeout=0.001) is None


@pytest.mark.parametrize("use", [ports, discarded, dropped, received, viewed, blocked, waited])
def test_a_domain_goes_with_the_last_that_is_of_it(use):
    domain = ps.Domain(7, "i8", enable_safe_overflow=False, subscriber_max_buffer_size=1)
    gone = weakref.ref(domain)
    use(domain)
    del domain
    gc.collect()
    assert gone() is None


def test_an_array_keeps_its_domain():
    domain = ps.Domain(7, "i8")
    gone = weakref.ref(domain)
    publisher, subscriber = ports(domain)
    publisher.send_copy(1)
    array = subscriber.receive().array
    del domain, publisher, subscriber
    gc.collect()
    assert gone() is not None and array == 1
    del array
    gc.collect()
    assert gone() is None
