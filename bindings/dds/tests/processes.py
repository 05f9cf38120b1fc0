# SPDX-License-Identifier: Apache-2.0 OR MIT
"""Starts the programs of the tests as processes that talk over loopback, and ends them."""
import atexit, json, os, shutil, signal, subprocess, sys, tempfile, time

folder = os.path.abspath(sys.argv[1])
with_gateway = ("peer", "cases", "calls")
wrapper = os.environ.get("WRAP", "").split()
slower = float(os.environ.get("SLOWER", "1"))  # under valgrind
few = os.environ.get("FEW")  # fewer messages, for slow checkers
work = tempfile.mkdtemp()
atexit.register(shutil.rmtree, work, True)
nice = os.environ.get("NICE", "0")
first_port = 10000 + 100 * (os.getpid() % 200)  # so that tests of two runs at a time don't meet
turn = 0
started = []

def uri(lease="60s", extra=""):
    """Each participant says often that it is there, so that none is given up for dead which gets no turn for some seconds."""
    discovery = "<LeaseDuration>%s</LeaseDuration><SPDPInterval>2s</SPDPInterval>" % lease
    return ("<CycloneDDS><Domain id='any'><General><Interfaces><NetworkInterface name='lo'/></Interfaces>"
            "<AllowMulticast>false</AllowMulticast></General><Discovery><ParticipantIndex>auto</ParticipantIndex>"
            "<Ports><Base>%d</Base></Ports>" % first_port +
            "<Peers><Peer Address='127.0.0.1'/></Peers>" + discovery + "</Discovery>" + extra + "</Domain></CycloneDDS>")

def start(program, role, where=None, log_to=None, **options):
    words = ["nice", "-n", nice] + (wrapper if program in with_gateway else []) + [os.path.join(folder, program), role]
    if program == "liar": words.pop(); words += [options["topic"], str(options["count"])]
    elif program == "calls": words += [str(options["count"]), options["topic"]]
    else:
        for name, value in options.items(): words += [name, str(value)]
    # No pipe: a full one would stop the threads of DDS, which write there too.
    log = open(log_to, "w") if log_to else tempfile.TemporaryFile("w+")
    process = subprocess.Popen(words, stdout=subprocess.PIPE, stderr=log, text=True,
                               env=dict(os.environ, CYCLONEDDS_URI=where or uri()))
    process.log = log
    started.append(process)
    return process

def end_all():
    """What a test that failed has left."""
    for process in started:
        process.kill()
        process.wait()
    started.clear()

# So long a program may take that has failed; one that hasn't ends sooner on each machine.
patience = 1000

def end(process, limit=patience, killed=False):
    try: out, _ = process.communicate(timeout=limit * slower)
    except subprocess.TimeoutExpired:
        process.kill(); process.communicate()
        raise AssertionError("no end after %d s" % (limit * slower))
    err = ""
    if process.log.readable():
        process.log.seek(0)
        err = process.log.read()
    process.err = err
    if killed:
        assert process.returncode in (-signal.SIGKILL, 128 + signal.SIGKILL), (process.returncode, err)
        return None
    assert process.returncode == 0, (process.returncode, out, err[-3000:])
    return json.loads(out.strip().splitlines()[-1]) if out.strip() else None

def topic():
    global turn
    turn += 1
    return "test/%d/%d" % (os.getpid(), turn)

def flag():
    """A file that isn't there yet: by it a program says that something came to pass, or is told so."""
    global turn
    turn += 1
    return os.path.join(work, "flag%d" % turn)

def put_up(path): open(path, "w").close()

def wait_for(path, *programs, limit=patience):
    """Until a program has made the file; none of these may end before."""
    until = time.time() + limit * slower
    while not os.path.exists(path):
        assert time.time() < until, "it didn't come to pass"
        assert all(program.poll() is None for program in programs), "a program has ended before"
        time.sleep(0.02)
