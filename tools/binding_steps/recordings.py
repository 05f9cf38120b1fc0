# SPDX-License-Identifier: Apache-2.0 OR MIT
"""Programs of each language record what they call, and a replay of what they print has the recorded replies. Each byte that they received is
in the recording."""
import re
import struct
import subprocess

from .places import is_here
from .programs import PAIRS, SANITIZERS, compile_program
from .steps import Failed, said

REPLAY_CRATE = "recording_replay"
# So many commands have no room in a recording of so few.
FEW = 20
# The commands that name no earlier one.
MAKERS = ("pub", "sub", "nothing")
# What the programs receive, message by message.
RECEIVED_IN_C = [b"reading\0", b"second\0", b"reading\0"]
RECEIVED_IN_EXAMPLE = [struct.pack("<2I", 1, 20500)]
# The example in C++; those of all languages print the same recording.
EXAMPLE = "../examples/recording/recording.cpp"


def replay(recording, replayer):
    """What the replay of a recording says, which has to have each reply."""
    with recording.open() as lines:
        ran = subprocess.run([replayer, "replay"], stdin=lines, stdout=subprocess.PIPE, stderr=subprocess.STDOUT, text=True)
    if ran.returncode:
        raise Failed(f"{recording.read_text()[:4000]}\nits replay ended with {ran.returncode}:\n{ran.stdout}")
    return ran.stdout


def received_in(text):
    """The bytes of each message that was received, as a recording has them: behind the receive, a read of each from the first one on."""
    messages, receive = [], None
    for number, line in enumerate(text.splitlines()[3:-1], 1):
        read = re.fullmatch(r"read (\d+)(?: (\d+))? = value (\d+)", line)
        if re.match(r"recv \d+ = sample ", line):
            messages.append(b"")
            receive = number
        elif read and receive == int(read[1]) and len(messages[-1]) == int(read[2] or 0):
            messages[-1] += bytes([int(read[3])])
        elif read:
            raise Failed(f"line {number + 3} reads nothing that was just received: {line}")
        else:
            receive = None
    return messages


def has_received(text, messages):
    """The recording reads these messages, each of their bytes."""
    if (read := received_in(text)) != messages:
        raise Failed(f"{text[:4000]}\nit reads {read[:20]}, where these were received: {messages[:20]}")


def record_and_replay(work, replayer, messages, *words):
    """What a program prints is run again. It has received these messages."""
    recording = work / "recording"
    recording.write_text(said(*words, both=False))
    has_received(recording.read_text(), messages)
    return replay(recording, replayer)


def record_program(work, replayer, messages, compiler, source, standard, *flags):
    """The same of a file of bindings."""
    return record_and_replay(work, replayer, messages, compile_program(compiler, source, standard, work / "recorded", *flags))


def without_line(lines, number):
    """The commands without one of them, which is counted from 1. Later ones name what they named before."""

    def renamed(line):
        word, *words = line.split(" ")
        if word not in MAKERS and int(words[0]) > number:
            words[0] = str(int(words[0]) - 1)
        return " ".join([word, *words])

    return lines[: number - 1] + [renamed(line) for line in lines[number:]]


def recording_of(head, commands):
    """The recording with these lines, and the last one that fits them."""
    text = "".join(f"{line}\n" for line in [*head, *commands])
    total = 0xCBF29CE484222325
    for byte in text.encode():
        total = (total ^ byte) * 0x100000001B3 % 2**64
    return f"{text}end {len(commands)} {total:016x}\n"


def find_faults(work, replayer):
    """The replay of a recording in which a read is left out, or has another value, fails, and says which. So it does without any read, unless
    the recording doesn't promise them."""
    head, commands = split_lines(said(work / "recorded", both=False))
    reads = [number for number, line in enumerate(commands, 1) if line.startswith("read ")]
    for number in reads:
        line = commands[number - 1]
        finds(replayer, recording_of(head, without_line(commands, number)), f"missing line {number + 3}: {line}")
        command, value = line.split(" = value ")
        other = [*commands[: number - 1], f"{command} = value {int(value) ^ 1}", *commands[number:]]
        finds(replayer, recording_of(head, other), f"line {number + 3}: {command}")
    none = commands
    for number in reversed(reads):
        none = without_line(none, number)
    finds(replayer, recording_of(head, none), f"missing line {reads[0] + 3}: {commands[reads[0] - 1]}")
    work.joinpath("recording").write_text(recording_of([re.sub(r" reads \d+$", "", line) for line in head], none))
    replay(work / "recording", replayer)
    return f"{2 * len(reads) + 1} faults are found"


def split_lines(text):
    """The first three lines of a recording, and its commands with their replies."""
    lines = text.splitlines()
    return lines[:3], lines[3:-1]


def is_whole(text):
    """Whether the recording reads what the program in C received."""
    try:
        has_received(text, RECEIVED_IN_C)
    except Failed:
        return False
    return True


def finds(replayer, text, expected):
    """This recording doesn't read what was received, and its replay fails, and says so."""
    if is_whole(text):
        raise Failed(f"{text[:4000]}\nit reads all that was received")
    ran = subprocess.run([replayer, "replay"], input=text, stdout=subprocess.PIPE, stderr=subprocess.STDOUT, text=True)
    if ran.returncode != 1 or expected not in ran.stdout:
        raise Failed(f"{text[:4000]}\nits replay ended with {ran.returncode}, and doesn't say '{expected}':\n{ran.stdout}")


def record_too_much(work, replayer):
    """A recording without room for all is the beginning of the whole one."""
    program = work / "recorded"
    whole, beginning = said(program, both=False).splitlines(), said(program, FEW, both=False).splitlines()
    kept = len(beginning) - 1
    if beginning[:kept] != whole[:kept] or kept > FEW + 3 or kept == len(whole) - 1:
        raise Failed("it isn't:\n" + "\n".join(beginning))
    return record_and_replay(work, replayer, RECEIVED_IN_C[: len(received_in("\n".join(beginning)))], program, FEW)


def record_random_calls(work, replayer, seed):
    """So are random calls with random numbers."""
    program, recording, replies = work / "random_recorded", work / "recording", work / "replies"
    said(program, seed, 2000, work / "script", replies, recording)
    # The program reads what it receives at once, as a number of eight bytes.
    numbers = re.findall(r"^sample\nok (\d+)$", replies.read_text(), re.M)
    has_received(recording.read_text(), [struct.pack("<Q", int(number)) for number in numbers])
    return replay(recording, replayer)


def record_random_channels(work, replayer, seed):
    """And random calls on channels, which a model of their own compares, too."""
    program, recording = work / "random_channels_recorded", work / "recording"
    said(program, seed, 3000, recording)
    return replay(recording, replayer)


def run_recordings(steps, work, replayer):
    """All of these."""
    for c, cpp in (pair for pair in PAIRS if is_here(pair[0]) and is_here(pair[1])):
        steps.run(f"c/recorded.c, {c} c11", record_program, work, replayer, RECEIVED_IN_C, c, "c/recorded.c", "c11", "-O2")
        steps.run(f"c/recorded.c, {c} c11, reads that are left out or another", find_faults, work, replayer)
        steps.run(f"c/recorded.c, {c} c11, too little room", record_too_much, work, replayer)
        steps.run(f"{EXAMPLE}, {cpp} c++17", record_program, work, replayer, RECEIVED_IN_EXAMPLE, cpp, EXAMPLE, "c++17", "-O2")
    steps.run("c/recorded.c, sanitizers", record_program, work, replayer, RECEIVED_IN_C, "gcc", "c/recorded.c", "c11", "-O1", *SANITIZERS)
    compile_program("gcc", "c/random_calls.c", "c11", work / "random_recorded", "-O1", *SANITIZERS)
    for seed in range(21, 26):
        steps.run(f"c/random_calls.c, recorded, seed {seed}", record_random_calls, work, replayer, seed)
    compile_program("gcc", "c/random_channels.c", "c11", work / "random_channels_recorded", "-O1", *SANITIZERS)
    for seed in range(31, 36):
        steps.run(f"c/random_channels.c, recorded, seed {seed}", record_random_channels, work, replayer, seed)
