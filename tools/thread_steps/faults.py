# SPDX-License-Identifier: Apache-2.0 OR MIT
"""Faults that are planted in the crate of Rust and in the headers of C++, and that tests have to see."""
import json
import shutil

from .base import ARCHIVE, BINDINGS, WORK, env, sh, step, there
from .endings import how_it_ends

# What each does, in which file, what is replaced by what there, and the test that sees it, whatever else the machine does.
IN_RUST = [
    ("nobody is woken for what comes", "guarded.rs", "        state.waiting.bring(brings);", "", "threads::a_receive_waits_for_a_message"),
    ("a message that comes isn't counted", "guarded.rs", "            count(&self.changes.messages);\n        }\n        if brings.meets",
     "        }\n        if brings.meets", "threads::what_comes_while_a_thread_falls_asleep_is_not_missed"),
    ("room that comes isn't counted", "guarded.rs", "            count(&self.changes.others);\n        }\n        if state", "        }\n        if state",
     "threads::what_comes_while_a_thread_falls_asleep_is_not_missed"),
    ("a thread that is back still counts as awake", "waiting.rs",
     "            self.awake -= usize::from(self.threads.remove(at).is_awake);", "            self.threads.remove(at);",
     "threads::a_receive_waits_for_a_message"),
    ("a thread isn't woken after the call", "guarded.rs",
     "self.brought(state, brings, code);\n            code\n        });\n        if let Some(wake) = wake {\n            self.wake(wake);",
     "self.brought(state, brings, code);\n            code\n        });\n        if let Some(wake) = wake {\n            drop(wake);",
     "threads::a_receive_waits_for_a_message"),
    ("who is woken doesn't wake the next", "guarded.rs", "let wake = self.brought(state, wait.brings, code);",
     "let wake: Option<Wake> = None;", "waits::each_of_sixteen_that_wait_is_woken"),
    ("a stop wakes nobody", "guarded.rs", "            state.waiting.bring(Brings::ALL);", "", "threads::stopping_ends_all_waits"),
    ("a stop isn't looked at", "guarded.rs", "|| state.is_stopped || is_past", "|| is_past", "threads::stopping_ends_all_waits"),
    ("time isn't looked at", "guarded.rs", " || is_past(wait.until)", "", "threads::a_receive_waits_for_so_long"),
    ("the end of a send frees nobody", "threads.rs", "Brings::FREE.and(Brings::LOAN)", "Brings::LOAN",
     "locks::the_end_of_a_send_wakes_who_waits_for_it"),
    ("a release frees no slot", "sample.rs", "self.hold.call(Brings::LOAN, release)", "self.hold.call(Brings::NOTHING, release)",
     "waits::a_loan_waits_for_a_slot_that_is_released"),
    ("a discard frees no loan", "loan.rs", "self.hold.call(Brings::LOAN,", "self.hold.call(Brings::NOTHING,",
     "waits::a_loan_waits_for_a_loan_that_is_given_back_or_sent"),
    ("a send frees no loan", "threads.rs", "Brings::MESSAGE.and(Brings::LOAN)", "Brings::MESSAGE",
     "waits::a_loan_waits_for_a_loan_that_is_given_back_or_sent"),
    ("a receive makes no room", "subscriber.rs", "self.hold.call(Brings::ROOM,", "self.hold.call(Brings::NOTHING,",
     "threads::a_send_waits_for_room"),
    ("a subscriber that goes makes no room", "subscriber.rs", "self.hold.call(Brings::COPY, |shared| unsafe {",
     "self.hold.call(Brings::NOTHING, |shared| unsafe {", "threads::a_send_waits_no_longer_for_a_subscriber_that_goes"),
    ("a dropped publisher stays", "send_outcome.rs", "shared.close_orphan(blocked.publisher);", "let _ = &shared;",
     "threads::a_publisher_that_goes_while_its_send_waits_closes_then"),
    ("nothing for one subscriber is nothing for all", "waiting.rs", " || one.port != port;", ";",
     "locks::a_thread_that_finds_nothing_keeps_no_message_from_others"),
    ("the lock isn't held while a call runs", "lock.rs", "let _guard = self.look().unwrap_or_else(|| self.wait());",
     "drop(self.look().unwrap_or_else(|| self.wait()));", "locks::a_lock_lets_in_one_thread_at_a_time"),
    ("a message isn't given back when the next is asked for", "desk.rs", "release(shared, &got.sample);", "let _ = (&shared, got);",
     "threads::each_message_is_given_back_when_the_next_is_asked_for"),
    ("what is given back then frees no loan", "desk.rs", "shared.brings_too = Brings::LOAN;", "",
     "waits::a_loan_waits_for_a_slot_that_comes_back_while_the_next_message_is_waited_for"),
    ("a reader takes more than it has room for", "desk.rs", "while self.taken.len() < self.capacity {", "loop {",
     "reader_writer::a_reader_takes_what_waits_at_once"),
    ("a reader gives the last message back unread", "reader.rs", "if self.unread() == 0 {", "if self.unread() <= 1 {",
     "reader_writer::a_reader_takes_what_waits_at_once"),
    ("a reader is served that doesn't ask", "desk.rs", "if self.state.load(Ordering::Acquire) != ASKED {",
     "if self.state.load(Ordering::Acquire) == SERVED {", "reader_writer::what_a_reader_has_stays_when_it_does_not_ask"),
    ("a reader takes once more what it was served", "desk.rs", "if self.state.swap(OWN, Ordering::Acquire) == SERVED {",
     "if self.state.swap(OWN, Ordering::Acquire) > SERVED {",
     "reader_writer::what_a_reader_is_served_before_it_has_the_lock_is_read_once"),
    ("what is done for a reader wakes nobody", "desk.rs", "            return Brings::COPY;", "            return Brings::NOTHING;",
     "reader_writer::a_blocked_send_goes_on_when_another_has_made_room"),
    ("what is given back for a reader frees no loan", "desk.rs", "            true => Brings::LOAN,", "            true => Brings::NOTHING,",
     "reader_writer::a_loan_goes_on_when_it_has_freed_its_slot"),
    ("a send doesn't see the room that it has made", "guarded.rs", "let seen = self.see(state, wait.what);\n                "
     "let wake = self.brought(state, wait.brings, code);", "let wake = self.brought(state, wait.brings, code);\n                "
     "let seen = self.see(state, wait.what);", "reader_writer::a_blocked_send_goes_on_when_it_has_made_room"),
    ("a reader that goes gives nothing back", "reader.rs", "                batch.give_back(shared);\n                sys::OK",
     "                let _ = (&batch, shared);\n                sys::OK", "reader_writer::a_reader_that_is_dropped_gives_all_back"),
    ("a reader that goes frees no loan", "reader.rs", "hold.call(Brings::LOAN, |shared|", "hold.call(Brings::NOTHING, |shared|",
     "reader_writer::a_reader_that_is_dropped_gives_all_back"),
    ("a writer that goes keeps its loan", "writer.rs", "|shared| discard(shared, &lent.loan)", "|_| { let _ = (discard, &lent); sys::OK }",
     "reader_writer::the_loan_that_is_ready_counts"),
    ("a writer forgets its loan while an earlier send waits", "writer.rs", "} else if code != sys::PUBLISHER_IS_BLOCKED {", "} else {",
     "reader_writer::a_writer_is_blocked_by_a_full_buffer"),
    ("a writer doesn't wait for room", "writer.rs", "            sys::BLOCKED => self.retry_until(",
     "            sys::BLOCKED if until.is_some() => self.retry_until(",
     "reader_writer::a_writer_waits_for_room_for_a_loan_and_for_an_earlier_send"),
    ("a message of a writer wakes nobody", "writer.rs", "let wait = self.wait_for(Waits::Free, until, Brings::SEND);",
     "let wait = self.wait_for(Waits::Free, until, Brings::NOTHING);", "reader_writer::a_message_of_a_writer_wakes_a_reader"),
    ("a task isn't remembered", "guarded.rs", "(true, None) => (list.add_task(port, waker), None),", "(true, None) => (Some(waker), None),",
     "events::a_task_is_woken_once"),
    ("a task isn't woken", "waiting.rs", "            task.wake();", "            drop(task);", "events::a_task_is_woken_once"),
    ("the tasks after the first aren't woken", "waiting.rs", "if self.has_tasks {", "if false {", "memory::tasks_and_listeners_take_none"),
    ("a subscriber that is made updates nobody", "port_factory.rs", "shared.update_publishers();", "let _ = &shared;",
     "latched::a_latched_message_comes_to_who_waits"),
    ("what a new subscriber brings wakes nobody", "port_factory.rs", "hold.call(Brings::SEND, |shared|", "hold.call(Brings::NOTHING, |shared|",
     "latched::those_who_wait_are_woken"),
    ("all publishers but one that goes are forgotten", "shared.rs", "self.publishers.retain(|one| one.id != id);",
     "self.publishers.retain(|one| one.id == id);", "latched::it_comes_from_each_publisher_and_by_borrowed_handles"),
    ("a child of a fork takes the lock", "guarded.rs", "        if !self.process.is_this() {\n            return None;\n        }\n", "",
     "fork::a_child_does_not_wait_for_the_lock_of_a_thread_that_it_lacks"),
    ("a child of a fork has its parent's domain of one thread", "fork.rs", "(*domain.0).domain = null_mut();", "drop(domain);",
     "fork::a_child_is_refused_by_a_domain_of_one_thread"),
    ("a child of a fork takes its parent's signal", "message_fd.rs", "if !self.0.process.is_this() {", "if false {",
     "fork::descriptor::a_child_takes_nothing_from_its_parents_descriptor"),
    ("a wait takes memory", "waiting.rs", "            threads: Vec::with_capacity(ROOM),", "            threads: Vec::new(),",
     "memory::threads_that_wait_take_none"),
    ("a task that is forgotten is woken", "waiting.rs", "let at = self.tasks.iter().position(is_it)?;",
     "let at = self.tasks.iter().position(is_it).filter(|_| false)?;", "events::a_waker_that_is_forgotten_is_dropped_and_no_other_is"),
    ("a call waits in a listener", "guarded.rs", "if is_over || is_listening()", "if is_over", "events::a_listener_is_called_without_the_lock"),
    ("a listener is called inside of itself", "listeners.rs", "if put_off(&self)", "if put_off(&self) && false",
     "events::a_listener_that_sends_isnt_called_inside_of_itself"),
    ("a listener stays when its subscriber goes", "subscriber.rs", "        self.hold.forget(self.port.id);", "",
     "events::a_listener_goes_with_its_subscriber_and_may_own_other_handles"),
    ("a descriptor is raised once", "message_fd.rs", "self.0.is_raised.swap(false, Ordering::AcqRel);", "",
     "events::descriptor::a_descriptor_is_readable_when_a_message_came"),
    ("a refused call wakes others", "guarded.rs", "_ => brings.by(code).and(too),", "_ => brings.and(too),",
     "wakes::a_refused_call_wakes_nobody"),
    ("a loan that waits wakes others where no history is kept", "shared.rs", "self.history.by(code);", "Brings::MESSAGE.by(code);",
     "wakes::threads_that_wait_for_a_loan_do_not_wake_each_other"),
    ("a history that an update for a loan hands over wakes nobody", "shared.rs", "self.brings_too = self.history.by(code);", "",
     "latched::an_update_for_a_loan_wakes_who_waits"),
    ("a send that is blocked where it was wakes others", "send_outcome.rs", "if code != sys::BLOCKED || stands_at(shared, blocked) != before {",
     "if true {", "wakes::a_refused_call_wakes_nobody"),
    ("a message that a retry brings wakes nobody", "send_outcome.rs", "if code != sys::BLOCKED || stands_at(shared, blocked) != before {",
     "if false {", "wakes::a_retry_wakes_whom_it_reaches"),
    ("a set isn't woken", "joined_port.rs", "            (told.rings)();\n", "", "wait_set::a_set_that_sleeps_is_woken"),
    ("what comes while a set looks is missed", "wait_set.rs", "            self.alarm.lower();\n            let (found, gone) = self.attachments.borrow_mut().look();",
     "            let (found, gone) = self.attachments.borrow_mut().look();\n            self.alarm.lower();", "wait_set::what_comes_while_a_set_falls_asleep_is_not_missed"),
    ("a set that was woken once looks without end", "alarm.rs", "self.is_raised.swap(false, Ordering::AcqRel);", "", "wait_set::sleep::an_idle_set_sleeps_on"),
    ("a set looks now and then", "wait_set.rs", "self.alarm.sleep(earlier(until, found.next));",
     "self.alarm.sleep(after(std::time::Duration::from_millis(1)));", "wait_set::sleep::an_idle_set_sleeps_on"),
    ("a set looks all the time", "wait_set.rs", "            self.alarm.sleep(earlier(until, found.next));\n", "", "wait_set::sleep::an_idle_set_sleeps_on"),
    ("a message that waits is told of once", "joined_port.rs", "        if let Port::Subscriber(_) = self.port {\n            self.ask_again();\n        }\n", "",
     "wait_set::subscribers_of_several_domains_have_events_while_messages_wait"),
    ("a deadline is missed beside a message", "attachments.rs", "if look.has_event {", "if look.has_event && !matches!(attachment.due, Some(due) if due <= found.now) {",
     "wait_set::a_message_that_is_late_for_its_deadline_is_an_event"),
    ("ticks come one behind the other", "attachments.rs", "now.checked_add(period - late)", "now.checked_add(Duration::ZERO).map(|_| self.due.unwrap() + period + late - late)",
     "wait_set::ticks_that_were_due_meanwhile_are_one"),
    ("those behind what is detached aren't called", "attachments.rs", "        self.due -= usize::from(at < self.due);\n", "",
     "wait_set::those_behind_what_is_detached_are_called_once"),
    ("a port that goes is called", "attachments.rs", "if look.is_gone {", "if false {", "wait_set::a_port_that_goes_is_not_called"),
    ("a stop ends no set's wait", "wait_set.rs", "found.is_stopped || is_listening()", "is_listening()", "wait_set::stopped_waits_end_once_no_port_has_an_event"),
    ("a stop loses messages", "wait_set.rs", "if found.of_ports || (found.of_times && !is_stopped) {", "if (found.of_ports || found.of_times) && !is_stopped {",
     "wait_set::stopped_waits_end_once_no_port_has_an_event"),
    ("what a stop leaves is lost", "joined_port.rs", "        self.joined.told().is_told.store(true, Ordering::Release);\n", "", "wait_set::events_after_a_stop_or_a_panic_stay"),
    ("a publisher isn't told of room", "joined_port.rs", "Port::Publisher(_) => Brings::ROOM.and(Brings::END),", "Port::Publisher(_) => Brings::END,",
     "wait_set::a_publisher_has_an_event_when_a_blocked_send_may_be_retried"),
    ("a set waits in a listener", "wait_set.rs", "found.is_stopped || is_listening()", "found.is_stopped", "wait_set::a_listener_does_not_wait"),
    ("an idle set asks its domains", "joined_port.rs", "|| !self.joined.told().is_told.swap(false, Ordering::AcqRel)", "", "wait_set::an_idle_set_asks_no_domain"),
    ("a child's set waits", "joined_port.rs", "is_after_fork: !self.joined.hold.is_here(),", "is_after_fork: false,", "fork::a_childs_set_waits_for_nobody"),
]

# The same of the headers, which cpp/threads.cpp has to see.
IN_CPP = [
    ("nobody is woken for what comes", "shared", "if (list_.is_anybody_told()) wake.ringer = next(brings);", ""),
    ("a message that comes isn't counted", "shared", "if ((brings & only(Waits::Message)) != 0) count(messages_);", ""),
    ("room that comes isn't counted", "shared", "if ((brings & ~only(Waits::Message)) != 0) count(others_);", ""),
    ("who is woken doesn't wake the next", "shared", "        wake = brought(brings, code);\n        is_over", "        brought(brings, code);\n        is_over"),
    ("what is given back for the next message frees no loan", "shared", "brought_by(brings, code) | std::exchange(too_, 0u);", "brought_by(brings, code);"),
    ("a refused call wakes others", "shared", "return iox2ps_brought_by(brings, code) |", "return brings |"),
    ("threads that wait for a loan wake each other", "", "bring_too(iox2ps_brought_by(hold_->history, updated));", "bring_too(only(detail::Waits::Loan));"),
    ("a history that an update for a loan hands over wakes nobody", "", "        hold_.bring_too(iox2ps_brought_by(hold_->history, updated));\n", ""),
    ("a send that is blocked where it was wakes others", "", "if (code != IOX2PS_BLOCKED || stands_at(domain) != before) hold_.bring_too", "hold_.bring_too"),
    ("a message that a retry brings wakes nobody", "", "if (code != IOX2PS_BLOCKED || stands_at(domain) != before) hold_.bring_too",
     "if (code != IOX2PS_BLOCKED && stands_at(domain) == before) hold_.bring_too"),
    ("a listener is called under the lock", "shared", "      wake = brought(brings, code);\n    }\n    wake.wake();",
     "      wake = brought(brings, code);\n      wake.wake();\n    }"),
    ("no listener is called", "shared", "if ((brings & only(Waits::Message)) != 0) wake.listeners = listeners_;", ""),
    ("a thread that waits isn't told", "shared", "    last_ = &one;\n    told_++;", "    last_ = &one;"),
    ("a listener isn't told", "shared", "      if (!listeners_) list_.has_listeners();\n", ""),
    ("a stop calls no listener", "shared", "      wake.listeners = listeners_;\n    }\n    wake.wake();", "    }\n    wake.wake();"),
    ("a call waits in a listener", "shared", "is_past(until) || calling().is_on", "is_past(until)"),
    ("a listener is called inside of itself", "events", "if (mine.is_on) return put_off(mine, std::move(due));", ""),
    ("what is put off isn't called", "events", "due = take(mine);", "due = nullptr;"),
    ("what is put off once isn't put off again", "events", "it->is_put_off_.exchange(false, std::memory_order_acq_rel);", ""),
    ("a listener stays when its subscriber goes", "", "    shared_->threads.forget(port);\n", ""),
    ("a close ends no wait", "", "      shared_->threads.end_waits(port);\n", ""),
    ("a wait for a loan goes on beside a blocked send", "", "        if (!sender_) return IOX2PS_NOT_LIVE;", "       "),
    ("a late subscriber waits for a publisher's next send", "", "    hold_->update_publishers();\n", ""),
    ("a history that is handed over late wakes nobody", "", "hold_.bring_too(hold_->history | detail::Waits::Loan);", ""),
    ("a stop can't be asked about", "shared", "    return is_stopped_;\n", "    return false;\n"),
    ("a thread that is woken sleeps on", "shared", "    one.is_woken.store(true, std::memory_order_release);\n", ""),
    ("a descriptor is raised once", "events", "raised_->is_raised.exchange(false, std::memory_order_acq_rel);", ""),
    ("a descriptor isn't reset", "events", "static_cast<void>(!::read(raised_->fd, &count, sizeof count));", "static_cast<void>(count);"),
]

# The same of wait sets, which cpp/wait_sets.cpp has to see.
OF_WAIT_SETS = [
    ("a set isn't woken", "wait_set", "    told.alarm_.raise();\n", ""),
    ("a set that joins isn't told", "shared", "    joined_ = &one;\n    told_++;", "    joined_ = &one;"),
    ("what comes while a set looks is missed", "wait_set", "      alarm_.lower();\n      Found found = look_at_all();", "      Found found = look_at_all();\n      alarm_.lower();"),
    ("a set that was woken once looks without end", "wait_set", "is_raised_.exchange(false, std::memory_order_acq_rel);", ""),
    ("a message that waits is told of once", "wait_set", "    Member<M>::handle(event, now);\n    this->put_off();", "    Member<M>::handle(event, now);"),
    ("a deadline goes on where a message came", "wait_set", "  void handle(Event, Clock::time_point now) override { begin_anew(now); }",
     "  void handle(Event event, Clock::time_point now) override { if (event != Event::Notification) begin_anew(now); }"),
    ("a deadline is missed once", "wait_set", "  void handle(Event, Clock::time_point now) override { begin_anew(now); }",
     "  void handle(Event event, Clock::time_point now) override { if (event == Event::Notification) begin_anew(now); else begin_anew(now + std::chrono::hours(1)); }"),
    ("a deadline is missed beside a message", "wait_set", "    if (answer.has_event) {", "    if (answer.has_event && (!one.due_ || *one.due_ > now_)) {"),
    ("ticks come one behind the other", "wait_set", "later(now, *period_ - (now - *due_) % *period_)", "later(*due_, *period_)"),
    ("what is detached is called", "wait_set", "    if (due_ == &one) due_ = one.after_;\n", ""),
    ("a guard leaves its port there", "wait_set", "  if (set_) set_->remove(*this);\n", ""),
    ("a port that is closed is called", "wait_set", "    answer_.is_live = code != IOX2PS_NOT_LIVE;\n", ""),
    ("a publisher that closes later is called", "wait_set", "return has_event ? IOX2PS_OK : IOX2PS_NOT_LIVE;", "return (has_event = true) ? IOX2PS_OK : IOX2PS_NOT_LIVE;"),
    ("a close wakes no set", "shared", "    list_.each_joined([](iox2ps_joined_t &one) { one.wake(&one, everything); });\n", ""),
    ("a stop ends no set's wait", "wait_set", "answer_.is_stopped = waits_are_stopped != 0;", ""),
    ("a stop loses messages", "wait_set", "if (found.of_ports || (found.of_times && !is_stopped))", "if ((found.of_ports || found.of_times) && !is_stopped)"),
    ("an interval keeps a stopped wait", "wait_set", "(found.of_times && !is_stopped)", "found.of_times"),
    ("what a stop leaves is lost", "wait_set", "    put_off(); /* what an earlier wait has left, or one that called this */\n", ""),
    ("a room that comes is told to no publisher", "wait_set", "(Waits::Room | Waits::Free) | Waits::Loan;", "Waits::Free | Waits::Loan;"),
    ("a loan that comes is told to no publisher", "wait_set", "(Waits::Room | Waits::Free) | Waits::Loan;", "Waits::Room | Waits::Free;"),
    ("a set waits in a listener", "wait_set", "found.is_stopped || calling().is_on;", "found.is_stopped;"),
    ("a set looks now and then", "wait_set", "alarm_.sleep(until && found.next ? (std::min)(*until, *found.next) : until ? until : found.next);",
     "alarm_.sleep(after(std::chrono::milliseconds(1)));"),
    ("a set looks all the time", "wait_set", "      alarm_.sleep(until && found.next ? (std::min)(*until, *found.next) : until ? until : found.next);\n", ""),
    ("an idle set asks its domains", "wait_set", "    if (!is_told_.exchange(false, std::memory_order_acq_rel)) return answer_;\n", "    is_told_.exchange(false, std::memory_order_acq_rel);\n"),
]

# The same of a domain that a gateway joins, which dds/tests/late.cpp has to see.
BESIDE_A_GATEWAY = [
    ("a late subscriber waits for the gateway's next message", "", "      hold_->add(sender);\n", ""),
    ("a late gateway waits for a publisher's next message", "", "      connect_publishers();\n      hold_->add(sender);", "      hold_->add(sender);"),
    ("a gateway that goes isn't forgotten", "", "      hold_->remove(sender);\n", ""),
    ("a message that comes while a thread falls asleep is missed", "shared", "if (has_changed(mine.what, seen)) return false;", ""),
    ("nobody is woken for what comes", "shared", "if (list_.is_anybody_told()) wake.ringer = next(brings);", ""),
]


def header_of(name):
    """The header of C++ that a fault names."""
    return f"include/iox2_pubsub{'_' if name else ''}{name}.hpp"


def planted():
    """Each fault, the file in bindings that it is planted into, and what it replaces there."""
    for fault, name, old, _, _ in IN_RUST:
        yield fault, f"rust/src/{name}", old
    for fault, name, old, _ in IN_CPP + OF_WAIT_SETS + BESIDE_A_GATEWAY:
        yield fault, header_of(name), old


def replace(path, old, new):
    """Replaces what stands once in a file."""
    text = path.read_text()
    if text.count(old) != 1:
        raise RuntimeError(f"{path.name} has `{old.strip()}` {text.count(old)} times")
    path.write_text(text.replace(old, new))


def copied(*folders):
    """These folders of bindings, in a place of their own."""
    to = WORK / "faulty"
    shutil.rmtree(to, ignore_errors=True)
    for folder in folders:
        shutil.copytree(BINDINGS / folder, to / folder, ignore=shutil.ignore_patterns("target"))
    return to


def plant(fault):
    """The crate with a fault, or without any."""
    crates = copied("rust", "rust-sys")
    if fault:
        _, name, old, new, _ = fault
        replace(crates / "rust/src" / name, old, new)
    return crates / "rust"


def compiled(crate, tests):
    """The program of these tests."""
    target = env(CARGO_TARGET_DIR=str(WORK / "target_faults"), RUSTFLAGS="-Awarnings")
    said = sh("cargo", "test", "--offline", "--quiet", "--no-run", "--message-format=json", "--test", tests, cwd=crate, env=target)
    made = [json.loads(line) for line in said.splitlines() if line.startswith("{")]
    return next(it["executable"] for it in made if it.get("executable") and it["target"]["name"] == tests)


def see_fault(fault):
    """Its test fails, or waits for good."""
    tests, name = fault[4].split("::", 1)
    ending = how_it_ends(compiled(plant(fault), tests), "--exact", name)
    if ending == "passes":
        raise RuntimeError(f"tests/{tests}.rs: {name} passes")
    return f"{name} {ending}"


def pass_without(faults):
    """The tests pass where nothing is planted, also those that see these faults, each by itself."""
    crate, all_names = plant(None), {}
    for fault in faults:
        tests, name = fault[4].split("::", 1)
        all_names.setdefault(tests, set()).add(name)
    for tests, names in all_names.items():
        program = compiled(crate, tests)
        for words in ([], *(["--exact", name] for name in sorted(names))):
            ending = how_it_ends(program, *words)
            if ending != "passes":
                raise RuntimeError(f"tests/{tests}.rs {ending}: {words or 'all'}")
    return "all tests pass"


THREADS, SETS, LATE = "cpp/threads.cpp", "cpp/wait_sets.cpp", "dds/tests/late.cpp"


def compiled_cpp(include, source):
    """A program over these headers; that of the gateway with what stands in for it, and a sanitizer that sees what is gone."""
    program, near = WORK / "faulty_threads", WORK / "near_gateway.o"
    words = ["g++", "-std=c++17", "-O1", "-w", "-I", include]
    if source == LATE:
        includes = ("-I", include, "-I", BINDINGS / "dds/include")
        sh("gcc", "-std=c11", "-O1", *includes, "-c", BINDINGS / "dds/tests/near_gateway.c", "-o", near)
        words += ["-fsanitize=address", *includes[2:], near]
    sh(*words, BINDINGS / source, ARCHIVE / "libiox2_pubsub.a", "-pthread", "-o", program)
    return program


def see_fault_cpp(fault, source):
    """The program fails, or waits for good."""
    _, header, old, new = fault
    include = copied("include") / "include"
    replace(include.parent / header_of(header), old, new)
    ending = how_it_ends(compiled_cpp(include, source))
    if ending == "passes":
        raise RuntimeError(f"{source} passes")
    return f"{source} {ending}"


def pass_without_cpp(source):
    """It passes where nothing is planted."""
    ending = how_it_ends(compiled_cpp(BINDINGS / "include", source))
    if ending != "passes":
        raise RuntimeError(f"{source} {ending}")
    return f"{source} passes"


def part_faults(in_rust=IN_RUST, in_cpp=IN_CPP, of_sets=OF_WAIT_SETS, beside=BESIDE_A_GATEWAY):
    """Each in turn."""
    if there("cargo"):
        step("the crate without a fault", lambda: pass_without(in_rust))
        for fault in in_rust:
            step(f"fault of the crate: {fault[0]}", lambda: see_fault(fault))
    if there("g++"):
        for source, faults in ((THREADS, in_cpp), (SETS, of_sets), (LATE, beside)):
            step(f"the headers without a fault, {source}", lambda: pass_without_cpp(source))
            for fault in faults:
                step(f"fault of the headers: {fault[0]}", lambda: see_fault_cpp(fault, source))
