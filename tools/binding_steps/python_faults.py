# SPDX-License-Identifier: Apache-2.0 OR MIT
"""Faults in the package for Python, one at a time, each of which a test has to see. Only the file that has it is compiled anew, and only
that test runs."""
import os
from concurrent.futures import ThreadPoolExecutor
from pathlib import Path
from typing import NamedTuple

from thread_steps.endings import how_it_ends

from .python_build import SOURCE, compiled, linked, objects_of
from .steps import Failed, said

# Seconds of a processor, of which all these tests together, without a fault, may take no more either. One that looks for something for
# good takes them.
MOST_SECONDS = 40
# So many faults are tried at a time: most tests sleep until it is clear that they wait for good.
AT_ONCE = 3
# What is wrong, which test sees it, in which file of C or Python it is, and what stands there in place of what.
FAULTS = (
    ("a loan with views is sent", "messages::test_a_loan_with_a_view_is_not_sent", "loans.c",
     'if (!is_usable(self) || !has_no_views(self, "send")) return NULL;', "if (!is_usable(self)) return NULL;"),
    ("a sample goes with its `with`, views or not", "messages::test_a_left_sample_goes_with_its_last_view", "messages.c",
     "if (self->views == 0 && !self->is_sending) give_back(self);", "if (!self->is_sending) give_back(self);"),
    ("a sample stays when its last view goes", "messages::test_a_left_sample_goes_with_its_last_view", "messages.c",
     "if (--self->views == 0 && self->is_left && !self->is_sending) give_back(self);", "--self->views;"),
    ("a sample can be written", "messages::test_a_struct_is_written_and_read_in_place", "messages.c",
     "(Py_ssize_t)self->len, !self->port, flags)", "(Py_ssize_t)self->len, 0, flags)"),
    ("a loan takes views while it is sent", "threads::test_a_loan_is_used_by_nobody_while_its_send_waits", "sends.c",
     "if (sending->message) sending->message->is_sending = 1;", ""),
    ("a child of fork goes on", "processes::test_a_child_that_touches_a_domain_of_its_parent_is_told", "module.c",
     "static void count_fork(void) { forks++; }", "static void count_fork(void) {}"),
    ("a wait isn't interrupted", "waits::test_a_signal_interrupts_a_receive", "waits.c",
     "if (sleep_until(one->waiter, one->until) == 0) continue;", "sleep_until(one->waiter, one->until);\n    continue;"),
    ("nobody is told of a message", "waits::test_a_message_wakes_a_receive_and_other_threads_run_meanwhile", "sends.c",
     "sends = BRINGS_MESSAGE | BRINGS_LOAN,", "sends = BRINGS_LOAN,"),
    ("nobody is told of room", "waits::test_room_wakes_a_send", "subscribers.c",
     "BRINGS_MESSAGE, BRINGS_ROOM, receive_made", "BRINGS_MESSAGE, 0, receive_made", "made_at(self, BRINGS_ROOM, receive_made", "made_at(self, 0, receive_made"),
    ("nobody is told of a slot", "waits::test_a_loan_that_comes_back_wakes_a_loan", "messages.c",
     "made(message->domain, BRINGS_LOAN, give_back_made", "made(message->domain, 0, give_back_made"),
    ("one alone is told", "events::test_a_descriptor_and_a_thread_that_waits_are_both_told", "waits.c",
     "if (waiter->waits & brings) raise_waiter(waiter);", "if (waiter->waits & brings) {\n      raise_waiter(waiter);\n      return;\n    }"),
    ("a close wakes nobody", "threads::test_a_thread_closes_a_port_that_others_use", "ports.c",
     "unlist_port(self), end_waits(self->domain, self);", "unlist_port(self);"),
    ("a blocked send isn't given up", "sends::test_a_send_that_is_dropped_is_given_up", "sends.c",
     "if (self->is_live && is_here(self->port->domain)) {", "if (0) {"),
    ("a sample keeps its subscriber open", "messages::test_a_kept_array_keeps_no_subscriber_open", "subscribers.c",
     "  begin_message(message);", "  Py_INCREF((PyObject *)self);\n  begin_message(message);"),
    ("the GIL is kept in a wait", "waits::test_a_message_wakes_a_receive_and_other_threads_run_meanwhile", "waits.c",
     "    Py_BEGIN_ALLOW_THREADS;\n    ppoll(&one, 1, left < 1e9 ? &time : NULL, &before);\n    Py_END_ALLOW_THREADS;", "    ppoll(&one, 1, left < 1e9 ? &time : NULL, &before);"),
    ("a port's descriptor stays raised", "events::test_the_descriptor_of_a_subscriber_says_whether_something_may_wait", "waits.c",
     "if (waits && one->port->own) lower(one->port->own);", ""),
    ("a call that waited stays listed", "waits::test_a_refused_loan_wakes_nobody_where_no_history_is_kept", "waits.c",
     "if (one->is_over) unlist_waiter(domain, one->waiter);", "if (one->is_over) (void)domain;"),
    ("a message keeps its domain for good", "lifetimes::test_a_domain_goes_with_the_last_that_is_of_it[received]", "messages.c",
     "  Py_XDECREF((PyObject *)self->domain);\n", ""),
    ("a wrong length is sent", "bad_input::test_a_wrong_number_of_bytes_is_refused[abc]", "publishers.c",
     "if (len % unit != 0 || (self->domain->is_single && len != unit)) {", "if (0) {"),
    ("a subscriber gets no history", "settings::test_history_size[2]", "subscribers.c",
     "list_port(making->port), connect_publishers(making->port->domain, handle);", "list_port(making->port);"),
    ("another language isn't woken", "languages::test_each_waits_for_the_others_frames", "join.c",
     "domain->shared->call(domain->shared, brings, make, what)", "domain->shared->call(domain->shared, 0, make, what)"),
    ("another language wakes nobody", "languages::test_a_frame_wakes_a_thread_that_waits", "join.c",
     "{ bring(of(joined), brings); }", "{ (void)joined, (void)brings; }"),
    ("another language's subscriber gets no history", "languages::test_a_subscriber_has_the_history_of_the_other_language", "join.c",
     "{ connect_publishers(of(joined), handle); }", "{ (void)joined, (void)handle; }"),
    ("a joined domain isn't kept", "owners::test_who_joins_keeps_the_domain_and_lets_it_go_once", "join.c",
     "  shared->keep(shared);\n", ""),
    ("an update for a refused loan wakes those who wait for messages", "waits::test_a_refused_loan_wakes_nobody_where_no_history_is_kept", "waits.c",
     "history_size > 0 ? BRINGS_MESSAGE : 0, update_made", "history_size > 0 ? BRINGS_MESSAGE : BRINGS_MESSAGE, update_made"),
    ("an update for a loan hands over a history and wakes nobody", "waits::test_an_update_for_a_loan_that_waits_wakes_who_gets_its_history[loan]", "waits.c",
     "history_size > 0 ? BRINGS_MESSAGE : 0, update_made", "history_size > 0 ? 0 : 0, update_made"),
    ("a loan that waits updates nothing", "waits::test_a_closed_subscriber_gives_its_slots_to_a_call_that_waits[loan]", "waits.c",
     "  if (code != IOX2PS_LOAN_ERROR_OUT_OF_MEMORY) return code;\n  made(", "  return code;\n  made("),
    ("a descriptor of other processes stays readable", "between_processes::test_a_descriptor_isnt_readable_for_good", "processes.c",
     "if (iox2ps_domain_clear_file_descriptor(&domain->handle) != IOX2PS_OK) bring", "if (0) bring"),
    ("other processes raise no descriptor", "between_processes::test_threads_wait_together", "waits.c",
     "  if (both >= 0) waiter->fd = both;\n  return both >= 0;", "  if (both >= 0) close(both);\n  return 1;"),
    ("those who wait at one port share a descriptor", "threads::test_threads_share_one_publisher", "waits.c",
     "  Waiter *waiter = take_waiter(port, waits);\n", "  if (!port->own) port->own = take_waiter(port, waits);\n  Waiter *waiter = port->own;\n", "  if (is_here(domain)) give_waiter(domain, waiter);\n", ""),
    ("a look for the dead wakes nobody", "nodes::test_a_descriptor_tells_of_a_death", "nodes.c",
     "  if (count > 0) tell_of_others(dead->port->domain);\n", ""),
    ("what the dead had wakes nobody", "nodes::test_a_descriptor_tells_of_a_death", "nodes.c",
     "  tell_of_others(self);\n", ""),
    ("who asks for the dead doesn't look for them", "nodes::test_who_asks_looks_for_the_dead", "nodes.c",
     "made_at(self, 0, look_made, &dead)", "made_at(self, 0, next_made, &dead)"),
    ("no death wakes anybody", "nodes::test_a_death_ends_a_wait_for_it", "processes.c",
     "{BRINGS_DEAD_NODE, IOX2PS_BRINGS_DEAD_NODE}", "{0, IOX2PS_BRINGS_DEAD_NODE}"),
    ("no thread of its process hears of an event", "notifications::test_threads_hear_an_event_of_another_process_and_of_this_one", "listeners.c",
     "made(self->domain, BRINGS_EVENT, notify_made", "made(self->domain, 0, notify_made"),
    ("no event of another process wakes anybody", "notifications::test_threads_hear_an_event_of_another_process_and_of_this_one", "processes.c",
     "{BRINGS_EVENT, IOX2PS_BRINGS_EVENT}", "{0, IOX2PS_BRINGS_EVENT}"),
    ("a closed listener goes on", "notifications::test_a_listener_hears_what_comes_after_its_creation", "ports.c",
     "case PORT_LISTENER: return close_listener(handle, self);", "case PORT_LISTENER: return IOX2PS_OK;"),
    ("a name is cut at its zero", "between_processes::test_what_is_no_text_is_no_name", "processes.c",
     "strlen(text) != (size_t)len", "len < 0"),
    ("a retry that is blocked where it was wakes those who wait for messages", "waits::test_a_retry_that_is_blocked_where_it_was_wakes_nobody", "sends.c",
     "? IOX2PS_PUBLISHER_IS_BLOCKED : code;", "? code : code;"),
    ("a receive without memory keeps its sample", "memory::test_a_receive_holds_nothing", "subscribers.c",
     "if (!message) return made(self->domain, BRINGS_LOAN, release_made, receiving), NULL;", "if (!message) return NULL;"),
    ("a blocked send without memory isn't given up", "memory::test_a_send_that_is_blocked_is_given_up_with_its_exception", "sends.c",
     "if (!blocked) return give_up_all(sending), NULL;", "if (!blocked) return NULL;"),
    ("a send that nobody can retry is promised", "memory::test_a_send_that_is_blocked_is_given_up_with_its_exception", "sends.c",
     "  if (blocked && PyObject_SetAttrString(value, \"blocked\", (PyObject *)blocked) == 0) {", "  if (blocked && (PyObject_SetAttrString(value, \"blocked\", (PyObject *)blocked) == 0 || (PyErr_Clear(), 1))) {"),
    ("an event loop polls", "events::test_an_idle_loop_makes_no_call_of_the_system", "waits.py",
     "        await raised\n", "        while not raised.done():\n            await asyncio.wait([raised], timeout=0.01)\n"),
    ("an event loop polls, by a name", "between_processes::test_an_idle_loop_wakes_for_a_look_for_the_dead_once_for_all_its_tasks", "waits.py",
     "        await raised\n", "        while not raised.done():\n            await asyncio.wait([raised], timeout=0.01)\n"),
    ("a task's descriptor stays raised", "events::test_tasks_that_were_woken_for_nothing_sleep_again", "waits.py",
     "            wait.lower()  # before the call that looks\n", ""),
    ("a cancelled send is lost", "events::test_a_cancelled_send_isn_t_lost", "waits.py",
     "        error.blocked = blocked  # type: ignore[attr-defined]\n", ""),
    ("an iteration holds a message while it waits", "events::test_an_iteration_holds_no_message_that_its_body_let_go", "subscriber.py",
     "            del sample  # or it would be held while the next is waited for\n", ""),
    ("a dtype of objects is taken", "bad_input::test_a_dtype_that_no_message_has_is_refused", "values.py",
     "if kind.hasobject:", "if False:"),
    ("what numpy changes is sent", "bad_input::test_what_would_become_another_value_is_refused", "conversion.py",
     'casting="unsafe" if counts else "same_kind"', 'casting="unsafe"'),
    ("a number becomes infinity", "bad_input::test_what_would_become_another_value_is_refused", "conversion.py",
     "return bool((np.isinf(array) & np.isfinite(given)).any())", "return False"),
    ("a field is what numpy makes of it", "bad_input::test_what_would_become_another_value_is_refused", "conversion.py",
     "column = converted(values.tolist() if values.dtype == object else values, field.base)", "column = np.array(values.tolist(), field)"),
    ("fields go by their places", "bad_input::test_what_has_no_such_fields_is_refused", "conversion.py",
     "if given.dtype.names != kind.names:", "if not given.dtype.names:"),
    ("a number is a struct", "bad_input::test_what_has_no_such_fields_is_refused", "conversion.py",
     "if not _is_of_tuples(message, kind.names):", "if False:"),
    ("numbers are taken for those that were given", "bad_input::test_what_would_become_another_value_is_refused", "conversion.py",
     "and made == given and type(given)", "and type(given)"),
    ("another message is sent as numbers", "bad_input::test_bytes_are_sent_as_they_are_and_so_is_another_message", "conversion.py",
     "RAW = (_core.Sample, _core.Loan, bytearray, memoryview)", "RAW = (bytearray,)"),
    ("an array of another shape is sent", "bad_input::test_a_wrong_shape_is_refused", "values.py",
     "if array.shape != inner if is_single else array.shape[1:] != inner or array.ndim == 0:", "if False:"),
    ("another type than the other language's is joined", "languages::test_what_is_joined_has_settings_and_fits", "domain.py",
     "if values.size != size or alignment % values.alignment:", "if False:"),
)


class Planting(NamedTuple):
    """Where faults are planted and tried: the objects of the package without one, by its files, and what compiles and tests it."""

    work: Path
    python: Path
    include: Path
    cameras: str
    objects: dict


def with_fault(planting, place, file, edits):
    """The package whose file has these edits, in a folder."""
    is_c = file.endswith(".c")
    text = (SOURCE / ("src" if is_c else "iox2_pubsub") / file).read_text()
    for old, new in zip(edits[::2], edits[1::2]):
        if text.count(old) != 1:
            raise Failed(f"{file} has {text.count(old)} times: {old}")
        text = text.replace(old, new)
    (place / file).write_text(text)
    changed = {file: compiled(place / file, planting.include, place)} if is_c else {}
    package = linked({**planting.objects, **changed}.values(), place / "package")
    if not is_c:
        (place / file).rename(package / "iox2_pubsub" / file)
    return package


def tests_end(planting, package, tests):
    """How these tests end over a package, which can be imported."""
    places = {**os.environ, "PYTHONPATH": str(package), "PYTHONDONTWRITEBYTECODE": "1", "IOX2_PUBSUB_CAMERAS": planting.cameras}
    said(planting.python, "-c", "import iox2_pubsub", env=places, cwd=planting.work)
    chosen = [f"{SOURCE}/tests/test_{file}.py::{name}" for file, name in (test.split("::") for test in tests)]
    words = (planting.python, "-m", "pytest", "-x", "-q", "-p", "no:cacheprovider", *chosen)
    return how_it_ends(*words, env=places, cwd=planting.work, seconds=MOST_SECONDS)


def none_is_seen(planting):
    """Without a fault the tests pass over a package that is built so."""
    package = linked(planting.objects.values(), planting.work / "without")
    ended = tests_end(planting, package, sorted({test for _, test, *_ in FAULTS}))
    if ended != "passes":
        raise Failed(f"no fault is planted, and yet it {ended}")
    return ended


def fault_is_seen(planting, number, test, file, *edits):
    """Its test doesn't pass over a package with a fault."""
    place = planting.work / f"fault_{number}"
    place.mkdir()
    ended = tests_end(planting, with_fault(planting, place, file, edits), (test,))
    if ended == "passes":
        raise Failed(f"{test} doesn't see it")
    return f"{test} {ended}"


def remove_left():
    """The files of domains that were left by tests which were killed."""
    for file in Path("/dev/shm").glob("iox2ps.test_python%2f*.*.*"):
        if not Path("/proc", file.name.split(".")[2]).exists():
            file.unlink(missing_ok=True)


def run_faults(steps, work, python, include, cameras):
    """Each of them, some at a time."""
    planting = Planting(work, python, include, cameras, objects_of(include, work / "without_fault"))
    before = steps.failed
    steps.run("python, no fault", none_is_seen, planting)
    if steps.failed > before:
        return
    with ThreadPoolExecutor(AT_ONCE) as beside:
        each = [(f"python, fault: {what}", fault_is_seen, planting, number, *more) for number, (what, *more) in enumerate(FAULTS)]
        for done in [beside.submit(steps.run, *words) for words in each]:
            done.result()
    remove_left()
