#!/usr/bin/env python3
# SPDX-License-Identifier: Apache-2.0 OR MIT
"""Runs the tests of the gateway between processes on loopback: run.py FOLDER [NAME..]. FOLDER has their programs, as CMake
builds them. The last line is `N passed, M failed`. Each process has a time limit, and only what this started is ended.

Of the environment: WRAP is put before each program with a gateway (valgrind ..), SLOWER multiplies the time limits, and FEW
makes it fewer messages."""
import os, re, shutil, sys, time

import security
from processes import end, end_all, few, flag, put_up, slower, start, topic, uri, wait_for, work

def sound(got):
    assert got["not_rising"] == 0 and got["changed"] == 0, got
    for name in ("take_failed", "write_failed", "receive_failed", "not_sent", "no_loan"): assert got.get(name, 0) == 0, got

def all_of_them(count, length, publishers=1, **options):
    """Keep-all: each message comes once, in order."""
    if few: count = max(count // 100, 20)
    name = topic()
    to = start("peer", "receive", topic=name, mode="retry", expect=count, max=length, publishers=publishers, **options)
    of = start("peer", "send", topic=name, mode="retry", count=count, len=length, publishers=publishers, node=5, **options)
    sent, got = end(of), end(to)
    sound(got)
    assert got["good"] == count and got["gaps"] == 0 and set(got["first"]) == {1} and got["missed"] == 0, got
    assert sent["sent"] == count and sent["acknowledged"] == 1, sent
    assert got["origins"] == publishers and got["node"] == 5 and got["from_here"] == 0, got
    return "%d messages of %d B of %d publishers in %.2f s: %d/s" % (count, length, publishers, sent["all_s"], count / sent["all_s"])

def small(): return all_of_them(100000, 64, buffer=64, limit=256, each=32)
def several(): return all_of_them(30000, 64, publishers=5, buffer=64, each=32)
def large(): return all_of_them(1000, 1000000, buffer=2, limit=16)
def empty_buffers(): return all_of_them(2000, 64, buffer=1, limit=1)

def slow_reader():
    """A slow reader holds back the sender's program: nothing is lost, and little waits."""
    name, count = topic(), 40 if few else 1500
    to = start("peer", "receive", topic=name, mode="retry", expect=count, max=20000, buffer=4, limit=8, slow_us=1000)
    of = start("peer", "send", topic=name, mode="retry", count=count, len=20000, buffer=4, gentle=0)
    sent, got = end(of), end(to)
    sound(got)
    assert got["good"] == count and got["gaps"] == 0, got
    return "%d of %d, at most %d held, sending took %.2f s" % (got["good"], count, sent["most_held"], sent["sending_s"])

def overflow():
    """Keep-last: in order, at most once, and what isn't there is counted."""
    name, over, count = topic(), flag(), 300 if few else 20000
    to = start("peer", "receive", topic=name, expect=count, until=over, buffer=8)
    sent = end(start("peer", "send", topic=name, count=count, buffer=8)); put_up(over); got = end(to)
    sound(got)
    here = got["received"] - got["good"]  # what the domain's own full buffer let go
    before = count - got["received"] - got["missed"]  # the topic's first ones, before any was taken
    assert 0 <= before <= got["first"][0] - 1 and here >= 0, (sent, got)
    assert got["good"] + got["gaps"] + got["first"][0] - 1 == count, (sent, got)
    return "%d of %d came, %d missed and counted, %d let go by the domain's own buffer" % (got["good"], count, got["missed"], here)

def both_ways():
    """Both send and receive at once with small buffers, so that all of them are full: nobody is stuck."""
    name, count = topic(), 200 if few else 4000
    options = dict(topic=name, mode="retry", count=count, len=2000, buffer=2, limit=4)
    first, second = start("peer", "both", **options), start("peer", "both", **options)
    one, two = end(first), end(second)
    for got in (one, two):
        sound(got)
        assert got["good"] == count and got["gaps"] == 0 and got["own_seen"] == count, got
        assert got["sent"] == count and got["received"] == count, got
        assert got["origins"] == 1 and got["from_here"] == 0 and got["own_origins"] == 0, got
    return "%d each way in %.2f s; no message came back to its sender" % (count, max(one["all_s"], two["all_s"]))

def late_joiner():
    """A process that comes later gets the history, and then what follows."""
    name, all_sent, over = topic(), flag(), flag()
    of = start("peer", "send", topic=name, count=50, history=10, buffer=16, peers=0, sent=all_sent, until=over)
    wait_for(all_sent, of)
    got = end(start("peer", "receive", topic=name, history=10, buffer=16, expect=10)); put_up(over); end(of)
    sound(got)
    assert got["good"] == 10 and got["first"] == [41] and got["gaps"] == 0, got
    return "of 50 messages the last 10 came, from the 41st on"

def without_history():
    """The first that a process gets which comes later is what is sent when it is there."""
    name, all_sent, over = topic(), flag(), flag()
    of = start("peer", "send", topic=name, count=50, peers=0, sent=all_sent, late=1, until=over)
    wait_for(all_sent, of)
    got = end(start("peer", "receive", topic=name, expect=1)); put_up(over); end(of)
    sound(got)
    assert got["good"] == 1 and got["first"] == [51] and got["gaps"] == 0, got
    return "of 50 messages none came, and the next did"

def volatile_reader():
    """One that comes later and asks for no history gets none, though others keep one."""
    name, all_sent, over = topic(), flag(), flag()
    of = start("peer", "send", topic=name, count=50, history=10, buffer=16, peers=0, sent=all_sent, late=1, until=over)
    wait_for(all_sent, of)
    got = end(start("peer", "receive", topic=name, history=10, volatile=1, buffer=16, expect=1)); put_up(over); end(of)
    sound(got)
    assert got["good"] == 1 and got["first"] == [51] and got["gaps"] == 0, got
    return "of a history of 10 messages none came, and the next did"

def other_dds_domain():
    """Gateways of one topic meet in one DDS domain, and not where each is in another one."""
    def readers(numbers):
        name, over = topic(), flag()
        first = start("cases", "look", topic=name, dds_domain=numbers[0], until=over)
        got = end(start("cases", "look", topic=name, dds_domain=numbers[1], writers=int(len(set(numbers)) == 1), hold=2))
        put_up(over); end(first)
        return got["readers"]
    met, unmet = readers((2, 2)), readers((2, 3))
    assert (met, unmet) == (1, 0), (met, unmet)
    return "met in domain 2, and not in 2 and 3"

def receiver_killed():
    """The receiver is killed among messages, and another one starts: the sender goes on."""
    name, seen, over, count = topic(), flag(), flag(), 400 if few else 10000
    first = start("peer", "receive", uri(lease="%gs" % (4 * slower)), topic=name, mode="retry", die_after=count // 10, expect=count)
    of = start("peer", "send", topic=name, mode="retry", count=count, more_when=seen, every_us=100)
    end(first, killed=True)
    second = start("peer", "receive", topic=name, mode="retry", expect=10**9, seen=seen, seen_after=1, until=over)
    sent = end(of); put_up(over); got = end(second)
    sound(got)
    assert sent["sent"] == sent["count"] and sent["acknowledged"] == 1 and got["gaps"] == 0 and got["good"] >= count, (sent, got)
    assert got["last"] == [sent["sent"]] and got["first"][0] + got["good"] - 1 == sent["sent"], (sent, got)
    return "killed after %d; the next had %d to %d without a gap, and the sender ended after %.1f s" % (
        count // 10, got["first"][0], sent["sent"], sent["all_s"])

def sender_killed():
    """The sender is killed and starts again: the receiver has both, each from its first message on, in order."""
    name, ready, seen, over, count = topic(), flag(), flag(), flag(), 200 if few else 3000
    to = start("peer", "receive", topic=name, mode="retry", expect=10**9, ready=ready, seen=seen, seen_after=count, until=over)
    wait_for(ready, to)
    first = start("peer", "send", topic=name, mode="retry", count=10**9, every_us=300)
    wait_for(seen, first, to)
    first.kill(); end(first, killed=True)
    sent = end(start("peer", "send", topic=name, mode="retry", count=count)); put_up(over); got = end(to)
    sound(got)
    assert got["publishers"] == 2 and got["gaps"] == 0 and sent["sent"] == count and sent["acknowledged"] == 1, (sent, got)
    assert set(got["first"]) == {1} and count in got["last"] and sum(got["last"]) == got["good"] >= 2 * count, (sent, got)
    return "%d of both processes, none out of order, twice or between left out" % got["good"]

def bad_frames():
    """Frames that fit no message are counted, the others come."""
    name, over, rounds = topic(), flag(), 10
    to = start("peer", "receive", topic=name, expect=10**9, until=over, max=64, buffer=64, limit=256, mode="retry")
    end(start("plain", "bad", topic=name, count=rounds, mode="retry")); put_up(over); got = end(to)
    assert got["received"] == 2 * rounds, got  # the good one, and one without bytes
    assert got["too_long"] == 2 * rounds and got["other_size"] == 3 * rounds, got
    return "of %d frames %d too long, %d of another size, %d sent on" % (7 * rounds, got["too_long"], got["other_size"], got["received"])

def bad_frames_for_values():
    """The same to a domain of single values of 16 bytes: no frame says that it is one value of so many bytes but the last."""
    name, over, rounds = topic(), flag(), 5
    to = start("cases", "values", topic=name, expect=1, until=over, mode="retry", buffer=64)
    end(start("plain", "bad", topic=name, count=rounds, mode="retry")); put_up(over); got = end(to)
    assert got["received"] == rounds and got["too_long"] == 4 * rounds and got["other_size"] == 2 * rounds, got
    return "of %d frames %d too long, %d of another size, %d sent on" % (7 * rounds, got["too_long"], got["other_size"], got["received"])

def hostile_lengths():
    """Frames of 50 MB never take their memory where messages have 64 bytes, and the next good ones come."""
    name, rounds = topic(), 4
    to = start("peer", "receive", topic=name, expect=rounds, max=64, buffer=64, limit=256, mode="retry")
    end(start("plain", "hostile", topic=name, count=rounds, len=50000000, mode="retry")); got = end(to)
    assert got["received"] == rounds and got["too_long"] == 0 and got["largest_kb"] < 40000, got
    assert len(to.err.splitlines()) <= 100, to.err[-2000:]
    return "%d good ones came after each, with %d MB at most; %d lines of log" % (rounds, got["largest_kb"] // 1000, len(to.err.splitlines()))

def full_disk():
    """Frames of 50 MB again, while the disk is full that Cyclone's log goes to."""
    name, rounds = topic(), 4
    to = start("peer", "receive", log_to="/dev/full", topic=name, expect=rounds, max=64, buffer=64, limit=256, mode="retry")
    end(start("plain", "hostile", topic=name, count=rounds, len=50000000, mode="retry")); got = end(to)
    assert got["received"] == rounds and got["too_long"] == 0, got
    return "%d good ones came, while nothing could be written to the log" % rounds

def typed_values():
    name = topic()
    to = start("cases", "values", topic=name, expect=500, mode="retry", buffer=32)
    end(start("cases", "values", topic=name, count=500, mode="retry", buffer=32)); got = end(to)
    assert got["good"] == 500 and got["wrong"] == 0, got
    return "500 values of a struct"

def other_values(role, **options):
    """What a domain of other values has of 50 values, while their sender stays."""
    name, all_sent, over, gone = topic(), flag(), flag(), flag()
    to = start("cases", role, topic=name, expect=1, until=over, mode="retry", buffer=64, **options)
    of = start("cases", "values", topic=name, count=50, mode="retry", buffer=64, sent=all_sent, until=gone)
    wait_for(all_sent, of, to); put_up(over); got = end(to)
    put_up(gone); end(of)
    return got

def other_payload_size():
    """Values of 16 bytes meet a domain of slices of bytes: none comes, and each is counted."""
    name, over = topic(), flag()
    to = start("peer", "receive", topic=name, expect=10**9, until=over, max=64, mode="retry")
    end(start("cases", "values", topic=name, count=50, mode="retry")); put_up(over); got = end(to)
    assert got["received"] == 0 and got["other_type"] == 50, got
    return "50 messages of another type counted"

def other_struct():
    """Another struct of the same size and alignment: its name tells it apart."""
    got = other_values("voltages")
    assert got["received"] == 0 and got["other_type"] == 50 and got["wrong"] == 0, got
    assert got["other_types"] == 2 and "name=Reading" in got["other_type_name"], got
    return "50 messages counted, of %s" % got["other_type_name"]

def nobody_takes_it():
    """A flush says so, at once, where nobody has the topic, or only with another type, and not where somebody takes it."""
    def flushed(role):
        name, over, gone = topic(), flag(), flag()
        to = start("cases", role, topic=name, expect=50, until=over, mode="retry", buffer=64)
        got = end(start("cases", "values", topic=name, count=50, mode="retry", buffer=64)); put_up(over); end(to)
        return got["flushed"]
    alone = end(start("peer", "send", topic=topic(), count=5, peers=0, flush=10**9))
    assert alone["acknowledged"] == 0, alone
    same, other = flushed("values"), flushed("voltages")
    assert (same, other) == (1, 0), (same, other)
    return "none of 5 messages was sent to anybody, and none of 50 to another struct"

def forked():
    """A child of a fork moves nothing, waits for nothing and closes nothing of its parent's gateway, which goes on."""
    got = end(start("cases", "fork", topic=topic()))
    assert got == {"child": 0, "code": 0, "sent": 1, "flushed": 204}, got
    return "each call of the child was refused"

def only_known():
    """Frames of a program that says no type: taken by default, and passed over where the settings say so."""
    def count(only):
        name, over, rounds = topic(), flag(), 5
        to = start("peer", "receive", topic=name, expect=10**9, until=over, max=64, buffer=64, limit=256, mode="retry", only_known=only)
        end(start("plain", "bad", topic=name, count=rounds, mode="retry")); put_up(over)
        return end(to)
    taken, passed = count(0), count(1)
    assert taken["received"] == 10 and passed["received"] == 0 and passed["other_type"] == 35, (taken, passed)
    return "10 taken, 35 passed over"

def settings_hold():
    """What the gateway tells Cyclone of datagrams, and what the user says in its place, as Cyclone itself says it."""
    def said(more):
        log = os.path.join(work, "settings%d" % len(more))
        where = uri(extra="<Tracing><Verbosity>config</Verbosity><OutputFile>%s</OutputFile></Tracing>" % log) + more
        end(start("cases", "look", where, topic=topic()))
        return re.search(r"MaxMessageSize/#text: (\S+ \S+)", open(log).read())[1]
    ours, theirs = said(""), said(",<CycloneDDS><Domain Id='any'><General><MaxMessageSize>8000B</MaxMessageSize></General></Domain></CycloneDDS>")
    assert ours == "65500 B" and theirs == "8000 B", (ours, theirs)
    return "%s by itself, and %s where the user says so" % (ours, theirs)

def second_gateway():
    """A second gateway for a domain or a topic of a process is refused, and one for messages that are too long."""
    got = end(start("cases", "twice", topic=topic()))
    assert got == {"refused": 3, "sent": 1, "receivers": 1}, got
    return "3 refused, and each domain and topic is free again after"

def many_domains():
    """Three domains of two processes, polled together: each process is one participant of DDS."""
    name, over, count = topic(), flag(), 20 if few else 200
    options = dict(topic=name, count=count, mode="retry", buffer=64, until=over)
    first, second = start("cases", "many", **options), start("cases", "many", **options)
    seen = end(start("plain", "participants", topic=name)); put_up(over)
    for one in (end(first), end(second)): assert one == {"bytes": count, "readings": count, "numbers": count}, one
    assert seen["participants"] == 3, seen  # its own too
    return "%d messages of 3 types each way, by %d participants" % (count, seen["participants"] - 1)

def gateways_come_and_go():
    """Gateways are opened and closed while the reader of another one of the process is full: nobody hangs."""
    name = topic()
    to = start("cases", "churn", topic=name, mode="retry", max=2000, buffer=2, limit=4, count=20)
    of = start("peer", "send", topic=name, mode="retry", count=200, len=2000, buffer=2, gentle=0, flush=30)
    begun = time.time(); got = end(to); took = time.time() - begun
    end(of)
    assert got == {"opened": 20, "blocked": 1}, got
    return "20 in %.1f s" % took

def with_security():
    """Cyclone's DDS Security: programs with certificates talk, one without isn't met, and one may only use its own topic."""
    if not shutil.which("openssl"): return "not run, since openssl isn't there"
    name, folder, ready, over, count = topic(), work, flag(), flag(), 20 if few else 200
    security.authority(folder)
    for who, topics in (("one", "*"), ("two", "*"), ("three", "something/else")): security.program(folder, who, topics)
    where = lambda who: uri(extra=security.settings(folder, who))
    outsider = start("cases", "look", topic=name, mode="retry", ready=ready, until=over)
    wait_for(ready, outsider)
    to = start("peer", "receive", where("one"), topic=name, mode="retry", expect=count, max=64)
    sent = end(start("peer", "send", where("two"), topic=name, mode="retry", count=count, len=64)); got = end(to)
    put_up(over); seen = end(outsider)
    sound(got)
    assert got["good"] == count and sent["sent"] == count and seen["readers"] == seen["writers"] == seen["received"] == 0, (got, seen)
    third = start("cases", "look", where("three"), topic=name, hold=1)
    try: end(third)
    except AssertionError: pass
    assert third.returncode == 3 and name in third.err, (third.returncode, third.err)
    return "%d came, one without a certificate met nobody, another's topic was refused: %s" % (count, third.err.strip().splitlines()[-1])

def c_calls():
    """A program in C, polled and with threads of its gateway's own under a lock of the program's."""
    for how in ("polled", "threads"):
        name, count = topic(), 50 if few else 500
        for got in map(end, [start("calls", how, topic=name, count=count) for _ in "ab"]):
            assert got == {"good": count, "wrong": 0, "sent": count, "flushed": 1}, got
    return "%d each way, polled and with threads" % count

def threads():
    """Gateways with threads of their own, over domains that threads share."""
    name, count = topic(), 200 if few else 20000
    options = dict(topic=name, mode="retry", count=count, buffer=8)
    first, second = start("cases", "threads", **options), start("cases", "threads", **options)
    one, two = end(first), end(second)
    for got in (one, two):
        sound(got)
        assert got["good"] == count and got["gaps"] == 0 and got["own_seen"] == count and got["flushed"] == 1, got
        assert got["sent"] == count and got["received"] == count, got
    return "%d each way in %.2f s" % (count, max(one["all_s"], two["all_s"]))

def other_type():
    name, over = topic(), flag()
    other = start("plain", "other", topic=name, until=over)
    got = end(start("cases", "look", topic=name, other_types=2, hold=2)); put_up(over); end(other)
    assert got["other_types"] >= 2 and got["other_type_name"] == "other::Thing" and got["writers"] == 0 and got["received"] == 0, got
    return "%d endpoints of %s seen, none matched" % (got["other_types"], got["other_type_name"])

def same_name_other_structure():
    """Without type information the name alone is compared, as with ROS 2's types: each sample is counted, and nothing is
    written to DDS's log."""
    name, over, count = topic(), flag(), 500
    to = start("peer", "receive", topic=name, expect=10**9, until=over, max=64, mode="retry")
    lied = end(start("liar", "liar", topic=name, count=count)); put_up(over); got = end(to)
    assert lied["matched"] == 1 and lied["acknowledged"] == 0 and to.err == "", (lied, to.err)
    assert got["malformed"] == count and got["received"] == 0, got
    return "of %d samples %d were no frames" % (count, got["malformed"])

def other_qos():
    """A side that wants a history that the other hasn't: no match, and it is counted."""
    name, over = topic(), flag()
    without = start("cases", "look", topic=name, history=0, incompatible=1, until=over)
    got = end(start("cases", "look", topic=name, history=4, incompatible=1, hold=1)); put_up(over); one = end(without)
    assert got["incompatible_writers"] == 1 and got["writers"] == 0 and one["incompatible_readers"] == 1, (got, one)
    return "counted on both sides"

def woken():
    got = end(start("cases", "wake", topic=topic()))
    assert got["first_s"] > 0.15 and got["both_s"] - got["first_s"] > 0.09, got
    return "a long wait ended after %.2f s, the next one waited" % got["first_s"]

def best_effort():
    """The buffers have room for all that one look at the topic finds, so that nothing is lost but by DDS."""
    name, seen, over, count = topic(), flag(), flag(), 100 if few else 2000
    options = dict(topic=name, reliability="best", mode="discard", buffer=2100)
    to = start("peer", "receive", expect=10**9, seen=seen, seen_after=1, until=over, **options)
    sent = end(start("peer", "send", count=count, more_when=seen, every_us=200, **options)); put_up(over); got = end(to)
    sound(got)
    assert got["good"] > 0 and got["gaps"] == got["missed"], got
    return "%d of %d came, %d missed and counted" % (got["good"], sent["count"], got["missed"])

def leaves_full():
    """A gateway goes while its reader is full and more comes: it ends soon, and the sender goes on."""
    name = topic()
    to = start("peer", "receive", topic=name, mode="retry", expect=50, max=2000, buffer=2, limit=4)
    of = start("peer", "send", topic=name, mode="retry", count=3000, len=2000, buffer=2, each=1)
    begun = time.time(); got = end(to); took = time.time() - begun
    sent = end(of); sound(got)
    assert sent["sent"] == 3000, sent
    return "gone after %.1f s with %d, the sender ended after %.1f s" % (took, got["good"], sent["all_s"])

def stalled_reader():
    """A program that doesn't receive for 25 s, longer than its lease of 20: the topic is held back, and then goes on."""
    name, count = topic(), 3000
    to = start("peer", "receive", uri(lease="20s"), topic=name, mode="retry", expect=count, max=2000, buffer=2, limit=4, stall_after=100, stall_s=25)
    of = start("peer", "send", topic=name, mode="retry", count=count, len=2000, buffer=2)
    sent, got = end(of), end(to)
    sound(got)
    assert got["good"] == count and got["gaps"] == 0, (sent, got)
    return "%d of %d, sending took %.1f s" % (got["good"], count, sent["all_s"])

tests = [small, several, large, empty_buffers, slow_reader, overflow, both_ways, late_joiner, without_history,
         volatile_reader, other_dds_domain, receiver_killed, sender_killed, typed_values, bad_frames, bad_frames_for_values,
         hostile_lengths, full_disk, other_payload_size, other_struct, only_known, other_type, same_name_other_structure, other_qos,
         nobody_takes_it, forked, settings_hold, second_gateway, many_domains, gateways_come_and_go, with_security, woken, best_effort, c_calls, threads,
         leaves_full, stalled_reader]

if __name__ == "__main__":
    chosen = [test for test in tests if test.__name__ in sys.argv[2:]] if len(sys.argv) > 2 else tests
    passed = failed = 0
    for test in chosen:
        begun = time.time()
        try:
            said = test()
            passed += 1
            print("ok      %s: %s (%.1f s)" % (test.__name__, said, time.time() - begun), flush=True)
        except Exception as wrong:
            failed += 1
            print("FAILED  %s: %s" % (test.__name__, str(wrong)[:1500]), flush=True)
        end_all()
    print("%d passed, %d failed" % (passed, failed))
    sys.exit(failed > 0)
