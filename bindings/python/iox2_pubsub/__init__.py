# SPDX-License-Identifier: Apache-2.0 OR MIT
"""Publish-subscribe inside one program, over a proved library: messages are numpy arrays or bytes, written and read where they lie.

>>> import numpy as np
>>> import iox2_pubsub as ps
>>> pose = np.dtype([("x", "f8"), ("y", "f8")], align=True)
>>> domain = ps.Domain(7, pose)
>>> publisher, subscriber = domain.publisher(), domain.subscriber()
>>> with publisher.loan() as loan:  # given back unless it is sent
...     loan.array["x"] = 1.5       # written in place
...     loan.send()
1
>>> with subscriber.receive() as sample:
...     print(sample.array["x"])    # read in place
1.5
"""
from . import errors
from ._core import Blocked, Loan, Notifier, Sample, version
from .domain import Domain
from .errors import *  # noqa: F403
from .listener import Listener
from .nodes import DeadNodes
from .publisher import Publisher
from .settings import (
    CHANNEL_STATE_CLOSED, CHANNEL_STATE_OPEN, EVENT_ID_MAX_VALUE, AllocationStrategy, BackpressureHandler, BackpressureStrategy, DegradationAction,
    DomainInfo, DomainSettings, Header, Node, NodeState, PortInfo, PortKind, PublisherSettings, Recording, SubscriberSettings, Warning, WarningKind
)
from .subscriber import Subscriber

__version__ = version
__all__ = [
    "CHANNEL_STATE_CLOSED", "CHANNEL_STATE_OPEN", "EVENT_ID_MAX_VALUE", "AllocationStrategy", "BackpressureHandler", "BackpressureStrategy",
    "Blocked", "DeadNodes", "DegradationAction", "Domain", "DomainInfo", "DomainSettings", "Header", "Listener", "Loan", "Node", "NodeState",
    "Notifier", "PortInfo", "PortKind", "Publisher", "PublisherSettings", "Recording", "Sample", "Subscriber", "SubscriberSettings", "Warning",
    "WarningKind"
]
__all__ += errors.__all__
