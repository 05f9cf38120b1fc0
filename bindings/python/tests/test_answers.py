# SPDX-License-Identifier: Apache-2.0 OR MIT
"""What ports were asked to answer, whose a message is, and how memory grows: by what a recording says, by headers and by the longest loan."""
import pytest

import iox2_pubsub as ps
from iox2_pubsub import AllocationStrategy, BackpressureHandler, BackpressureStrategy, DegradationAction


def first_call(make):
    """What a recording says of the port that this makes in a domain."""
    domain = ps.Domain(7, "u1", 4, record=(20, 4))
    port = make(domain)
    assert port.is_open
    return domain.recording().text.splitlines()[3]


@pytest.mark.parametrize(
    "options, said",
    [
        ({}, "2 retry static 4 most warn none"),
        ({"backpressure_strategy": BackpressureStrategy.RETRY_UNTIL_DELIVERED}, "2 retry static 4 most warn none"),
        ({"backpressure_strategy": BackpressureStrategy.DISCARD_DATA}, "2 discard static 4 most warn none"),
        ({"backpressure_handler": BackpressureHandler.NONE}, "2 retry static 4 most warn none"),
        ({"backpressure_handler": BackpressureHandler.FOLLOW_STRATEGY}, "2 retry static 4 most warn follow"),
        ({"backpressure_handler": BackpressureHandler.RETRY}, "2 retry static 4 most warn retry"),
        ({"backpressure_handler": BackpressureHandler.DISCARD_DATA}, "2 retry static 4 most warn discard"),
        ({"backpressure_handler": BackpressureHandler.DISCARD_DATA_AND_FAIL}, "2 retry static 4 most warn fail"),
        ({"degradation": DegradationAction.IGNORE}, "2 retry static 4 most ignore none"),
        ({"degradation": DegradationAction.WARN}, "2 retry static 4 most warn none"),
        ({"degradation": DegradationAction.FAIL}, "2 retry static 4 most fail none"),
        ({"allocation_strategy": AllocationStrategy.STATIC}, "2 retry static 4 most warn none"),
        ({"allocation_strategy": AllocationStrategy.BEST_FIT}, "2 retry bestfit 4 most warn none"),
        ({"allocation_strategy": AllocationStrategy.POWER_OF_TWO}, "2 retry poweroftwo 4 most warn none"),
        ({"max_loaned_samples": 5, "initial_max_slice_len": 9, "preallocated_samples": 3}, "5 retry static 9 3 warn none"),
    ],
)
def test_a_publisher_is_recorded_as_its_options_say(options, said):
    assert first_call(lambda domain: domain.publisher(**options)) == f"pub {said} = publisher 1"


@pytest.mark.parametrize(
    "options, said",
    [
        ({"buffer_size": 1}, "1"),
        ({"buffer_size": 2, "degradation": DegradationAction.IGNORE}, "2 ignore"),
        ({"degradation": DegradationAction.WARN}, "2"),
        ({"degradation": DegradationAction.FAIL}, "2 fail"),
    ],
)
def test_a_subscriber_is_recorded_as_its_options_say(options, said):
    assert first_call(lambda domain: domain.subscriber(**options)) == f"sub {said} = subscriber 1"


@pytest.mark.parametrize("service_id, node_id", [(7, 9), (1 << 100, (1 << 127) + 1)])
def test_a_domain_and_its_node_have_their_numbers(service_id, node_id):
    domain = ps.Domain(service_id, "u1", 4, node_id=node_id, record=(20, 4))
    publisher, subscriber = domain.publisher(), domain.subscriber()
    publisher.send_copy([1])
    assert subscriber.receive().header.node_id == node_id
    assert domain.recording().text.splitlines()[1].startswith(f"service {service_id} {node_id} ")


def refused_length(strategy):
    """How long a message is refused that is a value longer than the one before."""
    publisher = ps.Domain(7, "u1", 1).publisher(allocation_strategy=strategy)
    for length in range(1, 600):
        try:
            publisher.loan(length).discard()
        except (ps.LoanExceedsMaxLoanSize, ps.LoanOutOfMemory):
            return length
    return 600


# It grows 254 times at most: by BEST_FIT for each longer message, and by POWER_OF_TWO for those past a power of two.
@pytest.mark.parametrize("strategy, length", [(AllocationStrategy.STATIC, 2), (AllocationStrategy.BEST_FIT, 256), (AllocationStrategy.POWER_OF_TWO, 600)])
def test_memory_grows_as_the_options_say(strategy, length):
    assert refused_length(strategy) == length
