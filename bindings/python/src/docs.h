// SPDX-License-Identifier: Apache-2.0 OR MIT
/* Docstrings of the classes in C. tests/test_docs.py runs their examples, where ps is the package. */
#ifndef IOX2_PUBSUB_DOCS_H
#define IOX2_PUBSUB_DOCS_H

#define SIGNED(signature) signature "\n--\n\n"
#define PORTS ">>> domain = ps.Domain(7, bytes, 64)\n>>> publisher, subscriber = domain.publisher(), domain.subscriber()\n"

/* Domains. */

#define DOC_DOMAIN_CLOSE \
  SIGNED("close($self, /)") \
  "Closes all its ports and ends all waits; `with` does it too. What is held stays: samples and arrays are readable until they go.\n" \
  "\n" \
  ">>> domain = ps.Domain(7, bytes, 64)\n" \
  ">>> publisher = domain.publisher()\n" \
  ">>> domain.close()\n" \
  ">>> publisher.is_open\n" \
  "False\n"

#define DOC_DOMAIN_STOP_WAITS \
  SIGNED("stop_waits($self, /, stopped=True)") \
  "Lets no call wait any longer, also those that wait: a receive returns None, a loan or a send raises what it waits for. With\n" \
  "False calls wait again. So a program ends its threads.\n" \
  "\n" PORTS \
  ">>> domain.stop_waits()\n" \
  ">>> subscriber.receive(timeout=None) is None\n" \
  "True\n"

#define DOC_DOMAIN_RECORDING \
  SIGNED("recording($self, /)") \
  "The first calls as text, as many commands as `record` of the domain says, which tools/replay runs again. It goes on.\n" \
  "\n" \
  ">>> domain = ps.Domain(7, bytes, 64, record=(100, 8))\n" \
  ">>> publisher = domain.publisher()\n" \
  ">>> domain.recording().text.splitlines()[-2]\n" \
  "'pub 2 retry static 64 most warn none = publisher 1'\n"

#define DOC_DOMAIN_WORST_CASE_SLOTS \
  SIGNED("worst_case_slots($self, /, loans=None)") \
  "How many slots a publisher with so many loans has, unless its options ask for fewer: each takes the bytes of the longest\n" \
  "message. WorstCaseTooLarge.\n" \
  "\n" \
  ">>> ps.Domain(7, bytes, 64).worst_case_slots()\n" \
  "34\n"

#define DOC_DOMAIN_IS_CLOSED "Whether it was closed."
#define DOC_DOMAIN_WAITS_ARE_STOPPED "Whether no call waits, by stop_waits()."
#define DOC_DOMAIN_WAITING "How many calls and tasks wait at the moment. A test looks at it in place of a clock."
#define DOC_DOMAIN_CONNECTION_COUNT "How many connections between publishers and subscribers it keeps."
#define DOC_DOMAIN_BOOK_COUNT "How many books of slots it has: each publisher's, and a closed one's until nobody holds a slot of it."
#define DOC_DOMAIN_REFUSED_CONNECTIONS "How often memory for a connection was refused."
#define DOC_DOMAIN_WARNINGS "Its last warnings, 32 at most, the oldest first. Reading forgets none."

/* Processes. */

#define NAMED(name) ">>> with ps.Domain.create('My/" name "', bytes, 64) as domain:\n"

#define DOC_DOMAIN_NODES \
  SIGNED("nodes($self, /)") \
  "The processes that have the domain, each a Node: also the dead, as long as nobody has given back what they had. ProcessesNotShared\n" \
  "of a domain that wasn't opened by a name, as all calls on nodes.\n" \
  "\n" NAMED("Nodes") \
  "...     publisher = domain.publisher()\n" \
  "...     [(node.node_id == domain.node_id, node.state.name, node.number_of_publishers) for node in domain.nodes()]\n" \
  "[(True, 'ALIVE', 1)]\n"

#define DOC_DOMAIN_PORTS \
  SIGNED("ports($self, /)") \
  "The open publishers and subscribers of all processes, each a PortInfo.\n" \
  "\n" NAMED("Ports") \
  "...     publisher = domain.publisher()\n" \
  "...     [(port.kind.name, port.id == publisher.id) for port in domain.ports()]\n" \
  "[('PUBLISHER', True)]\n"

#define DOC_DOMAIN_CLEANUP \
  SIGNED("cleanup_dead_nodes($self, /)") \
  "Looks for processes that died, gives back what they had, and returns how many there were. Waits do it now and then.\n" \
  "\n" NAMED("Cleanup") \
  "...     domain.cleanup_dead_nodes()\n" \
  "0\n"

#define DOC_DOMAIN_NODE_ID "The id of this process, as in headers of its messages. ProcessesNotShared."
#define DOC_DOMAIN_DEAD_NODE_COUNT "How many processes died since the domain was made, and have had all given back. ProcessesNotShared."

#define DOC_DEAD_NODES_WAIT_ONE \
  SIGNED("wait_one($self, /, timeout=0)") \
  "The next Node that died, once all that it had is given back. None where nobody died within so many seconds; with None it waits for\n" \
  "good, or until waits are stopped. Only the last 64 are known. NotLive once it was closed.\n" \
  "\n" NAMED("WaitOne") \
  "...     domain.dead_nodes().wait_one() is None\n" \
  "True\n"

/* Events. */

#define EVENTS(name) NAMED(name) "...     notifier, listener = domain.notifier(), domain.listener()\n"

#define DOC_NOTIFIER \
  "Tells all listeners of a domain, in whichever process, that something happened: by a number, the event's id. `Domain.notifier`\n" \
  "makes one. It takes no memory, and isn't closed.\n" \
  "\n" EVENTS("Notifier") \
  "...     notifier.notify(), notifier.notify(7), listener.wait_all() == {0, 7}\n" \
  "(1, 1, True)\n"

#define DOC_NOTIFIER_NOTIFY \
  SIGNED("notify($self, /, event_id=None)") \
  "Notifies by this id, or by its own, and returns how many listeners there are. NotifyEventIdOutOfBounds, NoDomain.\n" \
  "\n" EVENTS("Notify") \
  "...     notifier.notify(5), listener.wait_one()\n" \
  "(1, 5)\n"

#define DOC_NOTIFIER_DEFAULT_EVENT_ID "The id that it notifies by unless another is said."

#define DOC_LISTENER_WAIT_ONE \
  SIGNED("wait_one($self, /, timeout=0)") \
  "The id of an event that came, of several by turns. None where none came within so many seconds; with None it waits for good, or\n" \
  "until waits are stopped. NotLive.\n" \
  "\n" EVENTS("WaitOne") \
  "...     notifier.notify(5), notifier.notify(5), listener.wait_one(), listener.wait_one()\n" \
  "(1, 1, 5, None)\n"

#define DOC_LISTENER_WAIT_ALL \
  SIGNED("wait_all($self, /, timeout=0)") \
  "The ids of all events that came, as a set. It waits as wait_one() does, and is empty where that returns None.\n" \
  "\n" EVENTS("WaitAll") \
  "...     notifier.notify(5), notifier.notify(3), sorted(listener.wait_all()), len(listener.wait_all())\n" \
  "(1, 1, [3, 5], 0)\n"

#define DOC_LISTENER_ID "A number that no other listener of the domain has."

/* What publishers and subscribers have. */

#define DOC_PORT_CLOSE \
  SIGNED("close($self, /)") \
  "Closes it; `with` does it too. Those who wait in it get NotLive, and its loans and samples stay. A second close does nothing.\n" \
  "PublisherIsBlocked where a send of it waits.\n" \
  "\n" PORTS \
  ">>> subscriber.close()\n" \
  ">>> publisher.send_copy(b'to nobody')\n" \
  "0\n"

#define DOC_PORT_FILENO \
  SIGNED("fileno($self, /)") \
  "A descriptor for select, poll and event loops, which is the port's. It is readable when a call may no longer have to wait:\n" \
  "receive for a subscriber, a loan or a send for a publisher. A call that finds that it has to wait lowers it, so nothing is to be\n" \
  "reset. NotLive; OSError where the system has none.\n" \
  "\n" PORTS \
  ">>> import select\n" \
  ">>> select.select([subscriber], [], [], 0)[0] == [subscriber], subscriber.receive()\n" \
  "(True, None)\n" \
  ">>> select.select([subscriber], [], [], 0)[0]\n" \
  "[]\n"

#define DOC_PORT_ID "A number that no other port of the domain has."
#define DOC_PORT_IS_OPEN "Whether it is open."
#define DOC_PORT_DOMAIN "Its domain."
#define DOC_ENTER(what) SIGNED("__enter__($self, /)") "The " what ", which `with` ends."
#define DOC_EXIT(what) SIGNED("__exit__($self, kind, error, trace, /)") what

/* Publishers. */

#define DOC_PUBLISHER_LOAN \
  SIGNED("loan($self, /, count=None, timeout=0)") \
  "Lends a message of `count` values, as many as it may have by default, to be written in place. All bytes are 0. Where there is no\n" \
  "slot it waits for so many seconds, or for good with None, and then raises LoanExceedsMaxLoans, LoanOutOfMemory or\n" \
  "PublisherIsBlocked. NotLive, LoanExceedsMaxLoanSize, LoanInternalFailure.\n" \
  "\n" PORTS \
  ">>> with publisher.loan(3) as loan:\n" \
  "...     loan.array[:] = b'abc'\n" \
  "...     loan.send()\n" \
  "1\n"

#define DOC_PUBLISHER_LOAN_UNINIT \
  SIGNED("loan_uninit($self, /, count=None, timeout=0)") \
  "As loan(), but the bytes are what earlier messages left, at the same cost for any length. So all of it is to be written.\n" \
  "\n" PORTS \
  ">>> loan = publisher.loan_uninit(3)\n" \
  ">>> with loan.array as view:\n" \
  "...     view[:] = b'abc'\n" \
  ">>> loan.send()\n" \
  "1\n"

#define DOC_PUBLISHER_SEND_COPY \
  SIGNED("send_copy($self, message, /, timeout=None)") \
  "Sends a copy of what numpy makes an array of the domain's dtype of, with the same values; of bytes, or of another message, as they\n" \
  "are. Returns how many subscribers took it. It waits for a slot and for room in full buffers as Loan.send does. What a loan and a\n" \
  "send raise; TypeError and ValueError where a value, the length or the shape isn't one of the domain's.\n" \
  "\n" PORTS \
  ">>> publisher.send_copy(b'abc'), bytes(subscriber.receive())\n" \
  "(1, b'abc')\n"

#define DOC_PUBLISHER_UPDATE_CONNECTIONS \
  SIGNED("update_connections($self, /)") \
  "Connects to new subscribers and drops closed ones, as each send does first. NotLive, PublisherIsBlocked, ConnectionFailure.\n" \
  "\n" PORTS \
  ">>> subscriber.close()\n" \
  ">>> publisher.update_connections()\n" \
  ">>> domain.connection_count\n" \
  "0\n"

#define DOC_PUBLISHER_IS_BLOCKED "Whether a send of it waits. NotLive."
#define DOC_PUBLISHER_INITIAL_MAX_SLICE_LEN "How many values a message may have, as long as memory isn't to grow."
#define DOC_PUBLISHER_STRATEGY "The number of its backpressure_strategy."

/* Subscribers. */

#define DOC_SUBSCRIBER_RECEIVE \
  SIGNED("receive($self, /, timeout=0)") \
  "The next message where it lies. None where none came within so many seconds; with None it waits for good, or until waits are\n" \
  "stopped. It waits without the GIL, and Ctrl-C ends it. NotLive; ReceiveExceedsMaxBorrows where as many samples are held as may\n" \
  "be; ReceiveConnectionOutOfMemory, ReceiveConnectionExpiredBufferFull.\n" \
  "\n" PORTS \
  ">>> subscriber.receive() is None\n" \
  "True\n" \
  ">>> publisher.send_copy(b'abc')\n" \
  "1\n" \
  ">>> with subscriber.receive(timeout=1.0) as sample:\n" \
  "...     bytes(sample)\n" \
  "b'abc'\n"

#define DOC_SUBSCRIBER_HAS_SAMPLES \
  SIGNED("has_samples($self, /)") \
  "Whether a message waits. NotLive, ConnectionFailure.\n" \
  "\n" PORTS \
  ">>> publisher.send_copy(b'abc'), subscriber.has_samples()\n" \
  "(1, True)\n"

#define DOC_SUBSCRIBER_UPDATE_CONNECTIONS \
  SIGNED("update_connections($self, /)") \
  "Connects to publishers that came, as each receive does first. NotLive, ConnectionFailure.\n" \
  "\n" PORTS \
  ">>> subscriber.update_connections()\n"

#define DOC_SUBSCRIBER_BUFFER_SIZE "How many messages of one publisher may wait."

/* Loans. */

#define DOC_LOAN \
  "A message that a publisher has lent: a writable buffer over its slot, until it is sent. `with` gives it back unless it was sent,\n" \
  "as the last reference to it does. An array or a memoryview of it keeps it; while one is alive it isn't sent. What takes a buffer\n" \
  "and gives it back at once, as torch.frombuffer and numpy.ndarray(buffer=memoryview(..)), isn't counted: hand `array` on to that.\n" \
  "\n" PORTS \
  ">>> loan = publisher.loan(3)\n" \
  ">>> view = memoryview(loan)\n" \
  ">>> view[:] = b'abc'\n" \
  ">>> loan.send()\n" \
  "Traceback (most recent call last):\n" \
  "BufferError: send: arrays or memoryviews of the message are alive (1): let go of them first, by del or by view.release()\n" \
  ">>> view.release()\n" \
  ">>> loan.send(), len(subscriber.receive())\n" \
  "(1, 3)\n"

#define DOC_LOAN_SEND \
  SIGNED("send($self, /, timeout=None)") \
  "Sends it; returns how many subscribers took it. Where a buffer is full and nothing is to be lost it waits for room, for so many\n" \
  "seconds or for good with None: then SendBlocked has the send as `blocked`, which goes on by that. BufferError while a view is\n" \
  "alive; PublisherIsBlocked, which leaves the loan; SendError.\n" \
  "\n" PORTS \
  ">>> publisher.loan(3).send()\n" \
  "1\n"

#define DOC_LOAN_SEND_ASYNC \
  SIGNED("send_async($self, /)") \
  "As send(), and waits in the event loop.\n" \
  "\n" PORTS \
  ">>> import asyncio\n" \
  ">>> asyncio.run(publisher.loan(3).send_async())\n" \
  "1\n"

#define DOC_LOAN_DELIVER \
  SIGNED("deliver_offset_to_connection($self, /, channel, connection, timeout=None)") \
  "Sends it into one channel of one connection, and to nobody else; returns how many took it. As send(); NoSuchChannel, which\n" \
  "leaves the loan.\n" \
  "\n" PORTS \
  ">>> connection = publisher.get_connection_id_of(subscriber.id)\n" \
  ">>> publisher.loan(3).deliver_offset_to_connection(0, connection)\n" \
  "1\n"

#define DOC_LOAN_DISCARD \
  SIGNED("discard($self, /)") \
  "Gives it back unsent. BufferError while a view is alive.\n" \
  "\n" PORTS \
  ">>> publisher.loan(3).discard()\n"

#define DOC_LOAN_ARRAY "The message where it lies: an array of the domain's dtype, or a memoryview. ValueError once it was sent or discarded."
#define DOC_LOAN_PUBLISHER "The id of its publisher."
#define DOC_LOAN_IS_LIVE "Whether it has its slot: it wasn't sent or discarded."
#define DOC_NUMBER "A number that no other message of the domain has."

/* Samples. */

#define DOC_SAMPLE \
  "A message that a subscriber has received: a buffer over its slot, which can't be written. The slot is given back when it is\n" \
  "released, and where arrays or memoryviews of it are alive, with the last of them: none ever shows another message.\n" \
  "\n" PORTS \
  ">>> publisher.send_copy(b'abc')\n" \
  "1\n" \
  ">>> with subscriber.receive() as sample:\n" \
  "...     kept = memoryview(sample)\n" \
  ">>> bytes(kept), sample.is_live\n" \
  "(b'abc', True)\n" \
  ">>> kept.release()\n" \
  ">>> sample.is_live\n" \
  "False\n"

#define DOC_SAMPLE_RELEASE \
  SIGNED("release($self, /)") \
  "Gives it back; a second time does nothing. BufferError while a view is alive.\n" \
  "\n" PORTS \
  ">>> publisher.send_copy(b'abc'), subscriber.receive().release()\n" \
  "(1, None)\n"

#define DOC_SAMPLE_ARRAY "The message where it lies: an array of the domain's dtype, or a memoryview. ValueError once it was released."
#define DOC_SAMPLE_HEADER "Where it comes from: a Header. NotLive once it was released."
#define DOC_SAMPLE_ORIGIN "The id of the publisher that sent it."
#define DOC_SAMPLE_SUBSCRIBER "The id of the subscriber that received it."
#define DOC_SAMPLE_IS_LIVE "Whether it has its slot: it wasn't released."

/* Sends that wait. */

#define FULL \
  ">>> domain = ps.Domain(7, bytes, 64, enable_safe_overflow=False, subscriber_max_buffer_size=1)\n" \
  ">>> publisher, subscriber = domain.publisher(), domain.subscriber()\n" \
  ">>> publisher.send_copy(b'abc')\n" \
  "1\n" \
  ">>> try:\n" \
  "...     publisher.send_copy(b'de', timeout=0)\n" \
  "... except ps.SendBlocked as error:\n" \
  "...     blocked = error.blocked\n"

#define DOC_BLOCKED \
  "A send that waits for a subscriber whose buffer is full, which a SendBlocked brings, and what interrupts a send that waits. It\n" \
  "is given up with its last reference.\n" \
  "\n" FULL \
  ">>> blocked.subscriber == subscriber.id, publisher.is_blocked\n" \
  "(True, True)\n" \
  ">>> del blocked\n" \
  ">>> publisher.is_blocked\n" \
  "False\n"

#define DOC_BLOCKED_RETRY \
  SIGNED("retry($self, /, timeout=0)") \
  "Tries again, and waits for so many seconds, or for good with None: how many took the message, or None where it waits on. NotLive\n" \
  "once it has ended, SendUnableToDeliver.\n" \
  "\n" FULL \
  ">>> bytes(subscriber.receive()), blocked.retry()\n" \
  "(b'abc', 1)\n"

#define DOC_BLOCKED_RETRY_ASYNC \
  SIGNED("retry_async($self, /)") \
  "Tries again in the event loop until it has ended: how many took the message. SendBlocked where waits are stopped.\n" \
  "\n" FULL \
  ">>> subscriber.receive().release()\n" \
  ">>> import asyncio\n" \
  ">>> asyncio.run(blocked.retry_async())\n" \
  "1\n"

#define DOC_BLOCKED_GIVE_UP \
  SIGNED("give_up($self, /)") \
  "Goes past the subscriber that it waits for: how many took the message, or None where it waits for another one. NotLive once it\n" \
  "has ended.\n" \
  "\n" FULL \
  ">>> blocked.give_up()\n" \
  "0\n"

#define DOC_BLOCKED_SUBSCRIBER "The id of the subscriber whose full buffer it waits for. NotLive once it has ended."

/* Channels. */

#define CONNECTED PORTS ">>> connection = publisher.get_connection_id_of(subscriber.id)\n"

#define DOC_CONNECTION_ID_OF \
  SIGNED("get_connection_id_of($self, /, receiver_port_id)") \
  "The number of its connection to the subscriber with this id, which an update has made; None where it has none. NotLive.\n" \
  "\n" CONNECTED \
  ">>> publisher.has_channel_state(0, connection, ps.CHANNEL_STATE_OPEN)\n" \
  "True\n"

#define DOC_HAS_CHANNEL_STATE \
  SIGNED("has_channel_state($self, /, channel, connection, state)") \
  "Whether a channel of one connection is in this state; not where there is no such connection. NotLive, NoSuchChannel.\n" \
  "\n" CONNECTED \
  ">>> publisher.has_channel_state(0, connection, ps.CHANNEL_STATE_CLOSED)\n" \
  "False\n"

#define DOC_HAS_DISCONNECT_HINT \
  SIGNED("has_disconnect_hint($self, /, channel, connection, state)") \
  "Whether a channel of one connection is in this state and its subscriber has hinted that it is about to disconnect. NotLive,\n" \
  "NoSuchChannel.\n" \
  "\n" CONNECTED \
  ">>> subscriber.set_disconnect_hint(0, ps.CHANNEL_STATE_OPEN)\n" \
  ">>> publisher.has_disconnect_hint(0, connection, ps.CHANNEL_STATE_OPEN)\n" \
  "True\n"

#define DOC_PUBLISHER_CLOSE_CHANNEL \
  SIGNED("close_channel($self, /, channel, connection, expected)") \
  "Closes a channel of one connection if it is in the expected state: it takes no message then. NotLive, NoSuchChannel.\n" \
  "\n" CONNECTED \
  ">>> publisher.close_channel(0, connection, ps.CHANNEL_STATE_OPEN)\n" \
  ">>> publisher.send_copy(b'to nobody')\n" \
  "0\n"

#define DOC_SET_CHANNEL_STATE \
  SIGNED("set_channel_state($self, /, channel, state)") \
  "Brings a channel into this state at each connection where it is closed; whether it was closed at all of them. NotLive,\n" \
  "NoSuchChannel.\n" \
  "\n" PORTS \
  ">>> subscriber.close_channel(0, ps.CHANNEL_STATE_OPEN)\n" \
  ">>> subscriber.set_channel_state(0, 5)\n" \
  "True\n"

#define DOC_AT_LEAST_ONE \
  SIGNED("at_least_one_channel_has_state($self, /, channel, state)") \
  "Whether a channel is in this state at some connection. NotLive, NoSuchChannel.\n" \
  "\n" PORTS \
  ">>> subscriber.at_least_one_channel_has_state(0, ps.CHANNEL_STATE_OPEN)\n" \
  "True\n"

#define DOC_SUBSCRIBER_CLOSE_CHANNEL \
  SIGNED("close_channel($self, /, channel, expected)") \
  "Closes a channel at each connection where it is in the expected state: it takes no message then. NotLive, NoSuchChannel.\n" \
  "\n" PORTS \
  ">>> subscriber.close_channel(0, ps.CHANNEL_STATE_OPEN)\n" \
  ">>> publisher.send_copy(b'to nobody')\n" \
  "0\n"

#define DOC_SET_DISCONNECT_HINT \
  SIGNED("set_disconnect_hint($self, /, channel, expected)") \
  "Hints that the subscriber is about to disconnect, at each connection where the channel is in the expected state. NotLive,\n" \
  "NoSuchChannel.\n" \
  "\n" PORTS \
  ">>> subscriber.set_disconnect_hint(0, ps.CHANNEL_STATE_OPEN)\n"

#endif
