"""Measures `wlb`: scripts, the broker, the lock table, the lanes, processes, the C libraries, and JavaScript.

BENCH is the program of the crate `bench_core`, which measures single parts. If OLDER is given, an older `wlb`, the lines of
Reports, Waiting and Answers also say how many times as long it takes. The tool builds `relay.c` and `bench_library.c` and leaves out
their figures if there is no `cc`. It needs `/proc`. It ends with an error if a run fails or has an unexpected number of answers.

Handover: scripts of growing length, in which two tabs of one origin hand a lock over again and again. Prints the seconds of
each script, and the time of a line as a ratio to the shortest script. If a line costs the same whatever was sent before it, the
ratios stay near 1. They may rise a little, because the tables are trees.

Recovery: 64 tabs of one partition have many live requests each when the broker is stopped. They report them to the next broker
in parts. Prints the seconds from the stop on for each number of requests, and the time of a request as a ratio to the smallest
one.

Reports: a broker on its byte stream waits for many tabs of one partition, and each tab reports no locks. Prints the processor
time of a report for each number of tabs, and its ratio to the smallest one.

Waiting: one tab holds a lock for which many requests wait. Another tab of the partition requests and releases a lock that no
other tab wants, again and again. Prints the processor time of a command for each number of waiting requests, and its ratio to
the smallest one.

Answers: one tab requests and releases a lock, again and again. Prints the processor time of a command with its answer, which
includes the start and the end of the program.

Table: `bench_core tables` plays traces of random calls on the indexed lock table. Prints the best rate for each trace.
`std_table.rs` is a table over the collections of Rust's standard library. It takes turns with `bench_core tables` and has to make the
same grants. Prints its best rate and the median ratio of the rates: above 1 the indexed table is faster. It is left out if there is
no `rustc`.

Lanes: in `bench_core lanes`, 1, 2 and 4 lanes step a broker of 1, 2 and 4 shards. Each lane has its own thread, each shard its
own lock. The events of a lane are requests and releases of a tab that is alone in its partition. `alone` is a broker of one
thread without a lock. `locked` is a locked broker with one lane, called directly, without intake, gate and outlet. The second
word of the command names the part: `alone`, `locked`, `lanes`, or `turns` for the next paragraph. Prints the best rate of all
lanes together, and the median ratio to the rate of one lane on one shard.

A locked step: the time of a step of `locked`, as a multiple of a step of `alone`. Both make as many steps as a generation may
have in a shard. First each kind has its own process, in which a step touches its memory for the first time; the best rates
count. Then both kinds take turns in one process, with an allocator that keeps freed memory, and with the usual one. Prints the
median, the least and the greatest ratio of the turns after the first two. There are two traces: a tab that is alone, and
sixteen tabs of one partition that contend for four locks, so that each request waits and each release grants a lock to another
tab.

Processes: a kernel, its broker with two lanes, and tabs that each request an exclusive lock, wait for it and release it, 2,000
times. The tabs start while no broker is up, so that all begin at once. The time runs from the line of the broker's start to the
last line of a tab's end. A round of a tab is two frames: the request, for whose answer it waits, and the release, for whose
answer it does not wait. Prints the best rate of granted locks, of all tabs together. `relay.c` stands beside it in each run,
with the same hops and as many tabs, which each send a frame and wait for it; its broker has a reader of its own, and its tabs
have one thread. Prints its best rate of round trips, and the median ratio of both rates. Sixteen tabs of four origins also play
with four lanes, on one shard and on four.

Idle: 64 tabs of one origin wait for a lock. One of them holds it, and waits for it behind the others by a second request. A tab
sends its request again after 20 milliseconds without an answer. Prints the processor time of kernel, broker and tabs over five
seconds, as a share of one processor: the median of the runs. The 64 tabs of the relay stand beside it, which each send a frame
20 milliseconds after the last answer, and then a kernel and a broker without tabs.

Library: `bench_library.c` over the archives in the folder BUILD, as `make lib` makes them. Its calls stand in one process: tabs
with clients of their own take turns, and each requests a lock of its own, is granted it and releases it. Prints the best rate for
each number of tabs, and the median ratio of the time to that with one tab. Then 16 tabs release and request again 4 locks each, at
random. Prints the rate, and the median ratios to its time: of the same rounds beside 64,512 locks of 1,008 other tabs, and of rounds
for any of 65,536 locks of 1,024 tabs. Its processes are a browser with one poll loop and
renderers over socket pairs. A round sends a release and the next request, and waits for a grant. Beside them stands the same loop
without a hub, which sends each frame back. Prints the best rates, and the median ratio. Then come the bytes that a hub allocates
for each of 65,536 locks of 1,024 tabs, and the sizes of the stripped shared libraries.

JavaScript: `js/lab/speed.js` measures locks through the JavaScript package beside the locks of browsers. Its head says what its lines
mean. It is left out if there is no Node.
"""

import argparse
import contextlib
import os
import resource
import shutil
import signal
import statistics
import struct
import subprocess
import tempfile
import time

import argument_types
import js
import packages

BENCH = argument_types.executable("`rt run` in crates/bench_core builds crates/bench_core/out/bench_core")

LENGTHS = [1_000, 10_000, 100_000]

TABS = 64
REQUESTS = [16, 64, 256, 1_024]

LISTED = [512, 1_024]
WAITING = [64, 1_024, 32_768]
ANSWERED = [200_000]
COMMANDS = 20_000
RUNS = 7
TABLE_RUNS = 5

ROUNDS = 2_000
# Title, origins, tabs of an origin, whether each tab has a lock name of its own, and the goal for the ratio to the relay.
TURNOUTS = [("1 tab", 1, 1, True, 0.6), ("4 tabs, a name each", 1, 4, True, 0.6), ("4 tabs, one name", 1, 4, False, 0.3)]
TURNOUTS += [("16 tabs of 4 origins, a name each", 4, 4, True, None)]
IDLE_GOAL = 0.25
IDLE_SECONDS = 5
IDLE_RUNS = 3
# Milliseconds without an answer after which a tab sends its request again.
QUIET = 20
# The most seconds of a run of processes.
SECONDS = 120

CALLED_TABS = [1, 4, 1_024]
CALLED_ROUNDS = 50_000
# Title, number of tabs that take locks, locks that each holds, and number of further tabs.
HELD = [("any of 64 locks", 16, 4, 0), ("any of 64 locks, beside 64,512 of other tabs", 16, 4, 1_008), ("any of 65,536 locks", 1_024, 64, 0)]
# Title, number of renderers, and whose the lock's name is.
LINKED = [("1 renderer", 1, "own"), ("4 renderers, a name each", 4, "own"), ("4 renderers, one name", 4, "one")]
LOCKS = 65_536


def handover(lines):
    """Returns a script of about this many lines. Each turn of a tab takes eight lines and sends four messages."""
    script = ["start -"]
    for tab in (1, 2):
        first = 2 * tab - 1
        # The first message is the Hello, the second the tab's report.
        script += [f"open {tab} https://a.test/", f"deliver m{first}", f"deliver m{first + 1}"]
    message, number, tab = 5, {1: 0, 2: 0}, 1
    while len(script) < lines:
        asked = number[tab]
        number[tab] += 2
        script += [
            f"ask {tab} exclusive f",
            f"deliver m{message}",
            f"deliver m{message + 1}",
            "show",
            f"release {tab} {asked}",
            f"deliver m{message + 2}",
            f"deliver m{message + 3}",
            "show",
        ]
        message += 4
        tab = 3 - tab
    return "\n".join(script) + "\n"


def asking(requests):
    """Returns a script in which each of 64 tabs makes this many requests."""
    script = ["start -"]
    for tab in range(1, TABS + 1):
        script += [f"open2 {tab} https://t.test/ https://a.test/", f"deliver m{2 * tab - 1}", f"deliver m{2 * tab}"]
    for tab in range(1, TABS + 1):
        script += [f"ask {tab} shared n{number}" for number in range(requests)]
    return script


def recovering(requests):
    """Returns the rest of the script: the broker is stopped, and every tab reports its requests to the next one."""
    parts = -(-requests // 64)
    script, sent = ["stop", "start"], TABS * (2 + requests)
    for tab in range(TABS):
        script.append(f"deliver m{sent + 1 + tab}")
    first = sent + 1 + TABS
    script += [f"deliver m{place}" for place in range(first, first + TABS * parts)]
    return script


def run(program, script):
    text = "\n".join(script) + "\n"
    start = time.monotonic()
    done = subprocess.run([program, "sim"], input=text.encode(), stdout=subprocess.PIPE, check=True)
    return time.monotonic() - start, done.stdout


def recovery_seconds(program, requests):
    """Returns the seconds from the stop on: the time of the whole script minus the time of its first half."""
    script = asking(requests)
    before = min(run(program, script)[0] for _ in range(3))
    whole = []
    for _ in range(3):
        taken, output = run(program, script + recovering(requests))
        # All tabs have joined, and every request is granted.
        assert output.count(b" granted upto ") == TABS * requests, output[-500:]
        whole.append(taken)
    return max(min(whole) - before, 0.001)


def seconds_of(program, script):
    start = time.monotonic()
    done = subprocess.run([program, "sim"], input=script.encode(), stdout=subprocess.PIPE, check=True)
    taken = time.monotonic() - start
    # Each turn ends with a lock that was granted and released.
    assert done.stdout.count(b"granted ") == done.stdout.count(b"taken ") > 0, done.stdout[-500:]
    return taken


def handovers(program):
    base = None
    for lines in LENGTHS:
        script = handover(lines)
        count = script.count("\n")
        taken = min(seconds_of(program, script) for _ in range(3))
        line = taken / count
        base = base or line
        print(f"handover: {count:7} lines {taken:8.3f} s  ratio of the time of a line {line / base:5.2f}")


def recoveries(program):
    base = None
    for requests in REQUESTS:
        taken = recovery_seconds(program, requests)
        each = taken / (TABS * requests)
        base = base or each
        print(f"recovery: {TABS} tabs of {requests:5} requests {taken:8.3f} s  ratio of the time of a request {each / base:5.2f}")


# ---- The broker on its byte stream


def frame(body):
    return struct.pack(">I", len(body)) + body


def start(tabs):
    """Returns the frame that starts generation 1, which waits for these tabs of partition 1."""
    places = b"".join(struct.pack(">HH", tab, 1) for tab in tabs)
    return frame(b"\x01\x21" + struct.pack(">IH", 1, len(tabs)) + places)


def stamped(tab, body):
    return frame(b"\x01\x20" + struct.pack(">HH", tab, 1) + body)


def report(tab):
    return stamped(tab, b"\x01\x02" + struct.pack(">IIH", 1, 0, 0))


def command(tab, number, operation):
    return stamped(tab, b"\x01\x01" + struct.pack(">II", 1, number) + operation)


def request(name):
    """Returns the operation that requests an exclusive lock and waits for it."""
    return b"\x01\x02\x00" + bytes([len(name)]) + name


def release(number):
    return b"\x02" + struct.pack(">I", number)


def processor_seconds():
    """Returns the processor time of all programs that have ended."""
    spent = resource.getrusage(resource.RUSAGE_CHILDREN)
    return spent.ru_utime + spent.ru_stime


def desk_seconds(program, frames, answers):
    """Returns the processor time of the desk's fastest run. Fails if a run has another number of answers."""
    taken = []
    for _ in range(RUNS):
        before = processor_seconds()
        done = subprocess.run([program, "desk"], input=frames, stdout=subprocess.PIPE, check=True)
        taken.append(processor_seconds() - before)
        assert count_frames(done.stdout) == answers, count_frames(done.stdout)
    return min(taken)


def count_frames(output):
    count = at = 0
    while at < len(output):
        at += 4 + struct.unpack_from(">I", output, at)[0]
        count += 1
    return count


def report_seconds(program, count):
    """Returns the processor time of one report, if the start lists this many tabs."""
    tabs = range(1, count + 1)
    listed = start(tabs)
    idle = desk_seconds(program, listed, count)
    whole = desk_seconds(program, listed + b"".join(report(tab) for tab in tabs), count)
    return max(whole - idle, 1e-6) / count


def command_seconds(program, waiting):
    """Returns the processor time of one command for a lock of its own, if this many requests wait for another lock."""
    waiters = -(-waiting // 63)
    frames = [start([]), report(1), command(1, 0, request(b"a")), report(2)]
    left = waiting
    for tab in range(3, 3 + waiters):
        frames.append(report(tab))
        here = min(63, left)
        left -= here
        frames += [command(tab, number, request(b"a")) for number in range(here)]
    before = b"".join(frames)
    idle = desk_seconds(program, before, 1 + waiting)
    whole = desk_seconds(program, before + turns_of(2, COMMANDS), 1 + waiting + COMMANDS)
    return max(whole - idle, 1e-6) / COMMANDS


def turns_of(tab, commands):
    """Returns the frames of a tab that requests and releases a lock, again and again."""
    numbers = range(0, commands, 2)
    return b"".join(command(tab, it, request(b"b")) + command(tab, it + 1, release(it)) for it in numbers)


def answer_seconds(program, commands):
    """Returns the processor time of one command and its answer, if one tab sends this many."""
    return desk_seconds(program, start([]) + report(1) + turns_of(1, commands), commands) / commands


def beside(what, counts, seconds, programs):
    """Prints the time of the first program for each count, and the ratio of the second program's time, if there is one."""
    base = None
    for count in counts:
        taken = [seconds(program, count) for program in programs]
        base = base or taken[0]
        older = "".join(f"  the older program takes {other / taken[0]:7.2f} times as long" for other in taken[1:])
        print(f"{what}: {count:7} {taken[0] * 1e6:8.2f} us each  ratio {taken[0] / base:5.2f}{older}")


# ---- Lanes


# The allocator gives no memory back to the system, and asks it for none by single lists.
KEEPING = {"GLIBC_TUNABLES": "glibc.malloc.trim_threshold=4294967296:glibc.malloc.mmap_threshold=4294967296"}
# Turns that do not count.
FIRST_TURNS = 2
# The traces of `alone` and `locked`, each with the ending that it adds to their names.
TRACES = (("of a tab that is alone", ""), ("of tabs that contend", "-contended"))


def lanes_and_steps(bench):
    rates, ratios = {}, {}
    for _ in range(RUNS):
        run = {}
        for part in ("alone", "locked", "lanes"):
            run.update(steps_a_second(bench, part, {}))
        for key, (rate,) in run.items():
            rates.setdefault(key, []).append(rate)
            ratios.setdefault(key, []).append(rate / run["lanes", "1", "1"][0])
    for key, some in rates.items():
        what, lanes, shards = key
        # The lanes have no trace that contends.
        if not what.endswith("-contended"):
            ratio = statistics.median(ratios[key])
            print(f"lanes: {what} {lanes} on {shards} {max(some) / 1e6:8.3f} million a second  ratio to one lane {ratio:5.2f}")
    for whose, trace in TRACES:
        alone, behind = (max(rates[what + trace, "1", "1"]) for what in ("alone", "locked"))
        print(f"a locked step, each kind in its own process, {whose}: {alone / behind:4.2f} times as long")
    for title, more in (("memory kept", KEEPING), ("memory given back", {})):
        run = [steps_a_second(bench, "turns", more) for _ in range(RUNS)]
        for whose, trace in TRACES:
            turns = [zip(one["alone" + trace, "1", "1"], one["locked" + trace, "1", "1"]) for one in run]
            times = [alone / locked for one in turns for alone, locked in list(one)[FIRST_TURNS:]]
            median = f"{statistics.median(times):4.2f} times as long ({min(times):4.2f} to {max(times):4.2f})"
            print(f"a locked step by turns, {whose}, {title}: {median}")


def steps_a_second(bench, part, more):
    """Returns the rates of a part's runs, in their order, by kind, number of lanes and number of shards."""
    found = {}
    done = subprocess.run([bench, "lanes", part], stdout=subprocess.PIPE, check=True, env={**os.environ, **more})
    for line in done.stdout.decode().splitlines():
        what, lanes, shards, steps, taken = line.split()
        found.setdefault((what, lanes, shards), []).append(int(steps) / int(taken) * 1e9)
    return found


# ---- Processes


def rounds_of(name, rounds):
    """Returns the script of a tab. Requests have even numbers, because each release takes a number, too."""
    return "".join(f"ask exclusive {name}\nwait {2 * turn}\nrelease {2 * turn}\n" for turn in range(rounds))


def nanoseconds_run(process):
    """Returns the time that the threads of a process have run. Clock ticks would be too coarse."""
    total = 0
    for thread in os.listdir(f"/proc/{process}/task"):
        with open(f"/proc/{process}/task/{thread}/schedstat", encoding="utf-8") as file:
            total += int(file.read().split()[0])
    return total


def members(session):
    """Returns the processes of a session, each with the time that it has run."""
    found = {}
    for name in os.listdir("/proc"):
        if name.isdigit():
            with contextlib.suppress(FileNotFoundError, ProcessLookupError):
                with open(f"/proc/{name}/stat", encoding="utf-8") as file:
                    fields = file.read().rpartition(")")[2].split()
                if int(fields[3]) == session:
                    found[int(name)] = nanoseconds_run(name)
    return found


def end(process):
    """Kills the leader of a session, and then each process that is left in the session."""
    process.kill()
    for child in members(process.pid):
        with contextlib.suppress(ProcessLookupError):
            os.kill(child, signal.SIGKILL)


@contextlib.contextmanager
def started(words, place):
    """Runs a program in a session of its own. Fails if its status is not 0. Kills the session when its time is up."""
    process = subprocess.Popen(words, cwd=place, stdin=subprocess.DEVNULL, stdout=subprocess.PIPE, start_new_session=True)
    alarm = signal.signal(signal.SIGALRM, lambda *_: end(process))
    signal.alarm(SECONDS)
    try:
        yield process
        process.stdout.read()
        assert process.wait() == 0, f"{words[0]} ended with status {process.returncode}"
    finally:
        signal.alarm(0)
        signal.signal(signal.SIGALRM, alarm)
        end(process)
        process.wait()
        process.stdout.close()


def seconds_between(words, place, first, last, count):
    """Returns the seconds from the first line that begins with `first` to the last of `count` lines that begin with `last`."""
    begin = end = None
    with started(words, place) as process:
        for line in process.stdout:
            if line.startswith(first) and begin is None:
                begin = time.monotonic()
            if line.startswith(last):
                end, count = time.monotonic(), count - 1
    assert begin is not None and count == 0, f"{words[0]} did not print every expected line"
    return end - begin


def write(place, name, lines):
    with open(os.path.join(place, name), "w", encoding="utf-8") as file:
        file.write(lines)


def kernel_words(program, lanes=2, shards=1):
    words = ["--lanes", str(lanes), "--shards", str(shards), "--limit", "65536"]
    return [program, "kernel", "--dir", ".", *words, "KERNEL"]


def granting_seconds(program, origins, tabs, has_names, rounds, lanes=2, shards=1):
    """Returns the seconds that all rounds take, with this many origins and tabs of each origin."""
    with tempfile.TemporaryDirectory(prefix="wlb-") as place:
        script = ""
        for origin in range(origins):
            for tab in range(tabs):
                write(place, f"TAB{tab}", rounds_of(f"n{tab}" if has_names else "f", rounds))
                script += f"open https://o{origin}.test/ TAB{tab}\n"
        # The last tabs read their scripts in the pause.
        write(place, "KERNEL", script + "pause 500\nstart\njoin\n")
        return seconds_between(kernel_words(program, lanes, shards), place, b"up ", b"ended ", origins * tabs)


def relaying_seconds(relay, tabs, rounds):
    with tempfile.TemporaryDirectory(prefix="wlb-") as place:
        return seconds_between([relay, "kernel", ".", str(tabs), str(rounds)], place, b"up", b"ended", 1)


def build(place, name, *words):
    """Builds a C program of this folder and returns its path, or None without a compiler. `words` follow its source."""
    if not shutil.which("cc"):
        print(f"no cc: {name} and the ratios to it are left out: {packages.hint('cc')}")
        return None
    program = os.path.join(place, name)
    source = os.path.join(os.path.dirname(os.path.abspath(__file__)), f"{name}.c")
    subprocess.run(["cc", "-O2", "-pthread", "-o", program, source, *words], check=True)
    return program


def build_rust(place, name):
    """Builds a Rust program of this folder and returns its path, or None without a compiler."""
    if not shutil.which("rustc"):
        print(f"no rustc: {name} and the ratios to it are left out: {packages.hint('rustc')}")
        return None
    program = os.path.join(place, name)
    source = os.path.join(os.path.dirname(os.path.abspath(__file__)), f"{name}.rs")
    subprocess.run(["rustc", "--edition", "2024", "-O", "-o", program, source], check=True)
    return program


def granting(program, rounds=ROUNDS, runs=RUNS):
    program = os.path.abspath(program)
    with tempfile.TemporaryDirectory(prefix="wlb-") as place:
        relay = build(place, "relay")
        for what, origins, tabs, has_names, goal in TURNOUTS:
            rates, relayed, count = [], [], origins * tabs * rounds
            for _ in range(runs):
                if relay:
                    relayed.append(count / relaying_seconds(relay, origins * tabs, rounds))
                rates.append(count / granting_seconds(program, origins, tabs, has_names, rounds))
            line = f"processes: {what:33} {max(rates):8.0f} locks a second"
            if relay:
                ratio = statistics.median(rate / other for rate, other in zip(rates, relayed))
                line += f"  the relay {max(relayed):8.0f} trips  ratio {ratio:5.2f}"
                line += f"  goal {goal}" if goal else ""
            print(line)


def sharding(program, rounds=ROUNDS, runs=RUNS):
    """Plays sixteen tabs of four origins with four lanes, on one shard and on four."""
    program = os.path.abspath(program)
    rates, ratios = {1: [], 4: []}, []
    for _ in range(runs):
        run = {shards: 16 * rounds / granting_seconds(program, 4, 4, True, rounds, 4, shards) for shards in rates}
        for shards, rate in run.items():
            rates[shards].append(rate)
        ratios.append(run[4] / run[1])
    for shards, some in rates.items():
        print(f"processes: 16 tabs of 4 origins, 4 lanes on {shards} {max(some):8.0f} locks a second")
    print(f"processes: four shards to one  ratio {statistics.median(ratios):5.2f}  goal 1")


def share_of(session, seconds):
    """Returns the share of one processor that a session uses in the next seconds."""
    before, begin = members(session), time.monotonic()
    time.sleep(seconds)
    after, taken = members(session), time.monotonic() - begin
    assert before.keys() == after.keys(), "a process began or ended during the measurement"
    return (sum(after.values()) - sum(before.values())) / 1e9 / taken


def idle_share(program, tabs, seconds):
    """Returns the share of one processor that a kernel, its broker and this many waiting tabs use."""
    with tempfile.TemporaryDirectory(prefix="wlb-") as place:
        write(place, "TAB", "ask exclusive f\nwait 0\nask exclusive f\nwait 1\n")
        # The kernel ends every tab at the end of its script.
        script = "start\n" + "open https://a.test/ TAB\n" * tabs + f"pause {1000 * seconds + 3000}\n"
        write(place, "KERNEL", script)
        with started(kernel_words(program), place) as process:
            for _ in range(1 + tabs):
                line = process.stdout.readline()
                assert line.startswith((b"up ", b"opened ")), line
            time.sleep(1)
            assert len(members(process.pid)) == 2 + tabs
            return share_of(process.pid, seconds)


def pacing_share(relay, tabs, seconds):
    """Returns the share of the relay, whose tabs send a frame as often as a waiting tab."""
    with tempfile.TemporaryDirectory(prefix="wlb-") as place:
        rounds = (seconds + 3) * 1000 // QUIET
        with started([relay, "kernel", ".", str(tabs), str(rounds), str(QUIET)], place) as process:
            assert process.stdout.readline() == b"up\n"
            time.sleep(1)
            assert len(members(process.pid)) == 2 + tabs
            return share_of(process.pid, seconds)


def idle(program, seconds=IDLE_SECONDS, runs=IDLE_RUNS):
    program = os.path.abspath(program)
    waiting, paced = [], []
    with tempfile.TemporaryDirectory(prefix="wlb-") as place:
        relay = build(place, "relay")
        for _ in range(runs):
            waiting.append(idle_share(program, 64, seconds))
            if relay:
                paced.append(pacing_share(relay, 64, seconds))
    print(f"idle: 64 tabs that wait {statistics.median(waiting):6.3f} of a processor  goal below {IDLE_GOAL}")
    if paced:
        ratio = statistics.median(share / other for share, other in zip(waiting, paced))
        print(f"idle: the relay's 64    {statistics.median(paced):6.3f} of a processor  ratio {ratio:5.2f}")
    print(f"idle: no tabs           {idle_share(program, 0, seconds):6.3f} of a processor  goal 0")


def table_rates(words, kind):
    """Returns for each trace of a benchmark of a table its rate and the digest of its grants."""
    rates, title = {}, None
    for line in subprocess.run(words, stdout=subprocess.PIPE, check=True, text=True).stdout.splitlines():
        if not line.startswith(" "):
            title = line
        elif line.startswith("  calls a second: "):
            rate = int(line.partition(f"{kind} ")[2])
        elif line.startswith("  digest of the grants: "):
            rates[title] = rate, line.partition(": ")[2]
    return rates


def table(bench, runs=TABLE_RUNS):
    with tempfile.TemporaryDirectory(prefix="wlb-") as place:
        std = build_rust(place, "std_table")
        ours, others = [], []
        for _ in range(runs):
            ours.append(table_rates([bench, "tables"], "indexed"))
            if std:
                others.append(table_rates([std], "std"))
    for title in ours[0]:
        digests = {some[title][1] for some in (*ours, *others)}
        assert len(digests) == 1, f"the tables grant different locks: {title}"
        line = f"table: {title:34} {max(our[title][0] for our in ours):8} calls a second"
        if others:
            ratio = statistics.median(our[title][0] / other[title][0] for our, other in zip(ours, others))
            line += f"  of std {max(other[title][0] for other in others):8}  ratio to it {ratio:5.2f}  goal 1"
        print(line)


# ---- The C libraries


def number_of(program, *words):
    """Returns the number that a program prints."""
    words = [program, *map(str, words)]
    return int(subprocess.run(words, stdout=subprocess.PIPE, timeout=SECONDS, check=True).stdout)


def calling(program):
    """Prints the rate of locks through hub and clients in one process."""
    taken = {tabs: [] for tabs in CALLED_TABS}
    for _ in range(RUNS):
        for tabs, some in taken.items():
            some.append(number_of(program, "calls", tabs, CALLED_ROUNDS))
    for tabs, some in taken.items():
        ratio = statistics.median(time / first for time, first in zip(some, taken[CALLED_TABS[0]]))
        rate = CALLED_ROUNDS / min(some) * 1e9
        print(f"library: calls, {tabs:5} tabs {rate:8.0f} locks a second  ratio of the time of a lock {ratio:5.2f}")


def holding(program):
    """Prints the rate of locks among few that are held, and how a lock's time grows with many."""
    taken = {what: [] for what, *_ in HELD}
    for _ in range(RUNS):
        for what, tabs, locks, others in HELD:
            taken[what].append(number_of(program, "held", tabs, CALLED_ROUNDS, locks, others))
    few, *_ = taken.values()
    for what, some in taken.items():
        ratio = statistics.median(time / first for time, first in zip(some, few))
        print(f"library: {what:44} {CALLED_ROUNDS / min(some) * 1e9:8.0f} locks a second  ratio of the time of a lock {ratio:5.2f}")


def linked(program, rounds=ROUNDS):
    """Prints the rate of locks of a browser process, beside the loop without a hub."""
    for what, tabs, name in LINKED:
        relayed, taken = [], []
        for _ in range(RUNS):
            relayed.append(number_of(program, "relay", tabs, rounds))
            taken.append(number_of(program, "browser", tabs, rounds, name))
        ratio = statistics.median(bare / time for bare, time in zip(relayed, taken))
        rates = [tabs * rounds / min(some) * 1e9 for some in (taken, relayed)]
        print(f"library: {what:25} {rates[0]:8.0f} locks a second  the bare loop {rates[1]:8.0f} trips  ratio {ratio:5.2f}")


def library(folder):
    archives = [os.path.join(folder, f"libwlb_{part}.a") for part in ("hub", "client")]
    include = os.path.join(os.path.dirname(os.path.abspath(__file__)), "..", "include")
    with tempfile.TemporaryDirectory(prefix="wlb-") as place:
        program = build(place, "bench_library", f"-I{include}", "-D_GNU_SOURCE", *archives)
        if not program:
            return
        calling(program)
        holding(program)
        linked(program)
        print(f"library: a lock of the hub takes {number_of(program, 'memory') / LOCKS:5.0f} bytes")
        for part in ("hub", "client"):
            stripped = os.path.join(place, "stripped")
            subprocess.run(["strip", "-o", stripped, os.path.join(folder, f"libwlb_{part}.so")], check=True)
            print(f"library: libwlb_{part}.so, stripped {os.path.getsize(stripped) / 1024:6.0f} KiB")


def main():
    parser = argparse.ArgumentParser(description=__doc__, formatter_class=argparse.RawDescriptionHelpFormatter)
    parser.add_argument("program", metavar="WLB", type=argument_types.program, help="the program `wlb`")
    parser.add_argument("bench", metavar="BENCH", type=BENCH, help="the program `bench_core`")
    parser.add_argument("older", metavar="OLDER", type=argument_types.program, nargs="?", help="an older `wlb`")
    parser.add_argument("--build", metavar="BUILD", type=argument_types.folder, default="build", help="the folder that `make lib` has written")
    given = parser.parse_args()
    program, bench = given.program, given.bench
    programs = [program, given.older] if given.older else [program]
    handovers(program)
    recoveries(program)
    beside("reports, tabs listed ", LISTED, report_seconds, programs)
    beside("commands, waiting for another lock", WAITING, command_seconds, programs)
    beside("commands with their answers", ANSWERED, answer_seconds, programs)
    table(bench)
    lanes_and_steps(bench)
    granting(program)
    sharding(program)
    idle(program)
    library(given.build)
    if js.run(program, "speed.js"):
        raise SystemExit("bench: speed.js has failed")


if __name__ == "__main__":
    main()
