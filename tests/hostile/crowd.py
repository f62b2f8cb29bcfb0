"""Hostile connections that are made by processes of their own, so that the honest two share their processor with
nobody, and at a pace: so many in so many seconds.
"""
import os
import pickle
import struct
import sys
import time


class Elsewhere:
    """The program, seen by a process that did not start it."""

    def __init__(self, process):
        self.pid, self.returncode = process.pid, None

    def poll(self):
        """None while it runs; one that has ended, and that nobody has asked for its status, is a zombie."""
        try:
            with open('/proc/%d/stat' % self.pid) as file:
                if file.read().rsplit(')', 1)[1].split()[0] != 'Z':
                    return None
        except OSError:
            pass
        self.returncode = 'unknown'
        return self.returncode


class Pace:
    """The cases of a run begin one after the other, spread over these seconds; none where there are 0."""

    def __init__(self, seconds, cases):
        self.seconds, self.cases, self.begun = seconds, cases, time.monotonic()

    def wait_for(self, number):
        if self.seconds:
            time.sleep(max(0.0, self.begun + self.seconds * number / self.cases - time.monotonic()))


def send_to(pipe, what):
    data = pickle.dumps(what)
    os.write(pipe, struct.pack('>I', len(data)))
    while data:
        data = data[os.write(pipe, data):]


def receive_from(pipe, size):
    data = b''
    while len(data) < size:
        some = os.read(pipe, size - len(data))
        if not some:
            raise EOFError
        data += some
    return data


class Worker:
    """A process that makes the hostile connections of some lanes. It is told the number of each phase, and answers with
    what it counted."""

    def __init__(self, number, server, make_phase):
        self.number = number
        asked, asks = os.pipe()
        told, tells = os.pipe()
        self.pid = os.fork()
        if self.pid:
            os.close(asked)
            os.close(tells)
            self.asks, self.told = asks, told
            return
        os.close(asks)
        os.close(told)
        server.caster.process = Elsewhere(server.caster.process)
        try:
            while True:
                phase = receive_from(asked, 1)[0]
                send_to(tells, make_phase(phase, self.number))
        except EOFError:
            os._exit(0)
        finally:
            # This process goes no further, whatever it met.
            os._exit(1)

    def begin(self, phase):
        os.write(self.asks, bytes([phase]))

    def end(self):
        return pickle.loads(receive_from(self.told, struct.unpack('>I', receive_from(self.told, 4))[0]))

    def leave(self):
        os.waitpid(self.pid, 0)


class Crowd:
    """So many processes beside this one. Each counts for itself, and all is counted together here."""

    def __init__(self, count, server, outcome, make_lanes):
        self.server, self.outcome = server, outcome

        def make_phase(phase, number):
            """In the process of this number: its lanes of the phase, and what came of them."""
            server.counts.clear()
            server.endings.clear()
            outcome.passed, outcome.failed = 0, []
            make_lanes(phase, number, count)
            return dict(server.counts), dict(server.endings), outcome.passed, outcome.failed

        sys.stdout.flush()
        self.workers = [Worker(number, server, make_phase) for number in range(count)]

    def run(self, phase):
        for worker in self.workers:
            worker.begin(phase)
        for worker in self.workers:
            counts, endings, passed, failed = worker.end()
            self.server.counts.update(counts)
            self.server.endings.update(endings)
            self.outcome.passed += passed
            self.outcome.failed += failed

    def leave(self):
        """A process that was begun later holds what the earlier ones are asked by, so all are let go first."""
        for worker in self.workers:
            os.close(worker.asks)
        for worker in self.workers:
            worker.leave()


def share(latencies, part):
    """The latency below which so large a part of them is."""
    return sorted(latencies)[min(len(latencies) - 1, int(len(latencies) * part))]


def tell(latencies):
    print('from the honest source to its rover, %d frames: p50 %.1f ms, p99 %.1f ms, p99.9 %.1f ms, largest %.1f ms'
          % (len(latencies), *(1000 * share(latencies, part) for part in (0.5, 0.99, 0.999, 1))))
