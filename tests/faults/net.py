"""Sides of a network, each a namespace of its own, and how they reach the caster: by a cable (a
pair of veth), which can be pulled, or by a road, on which packets are lost, come late and
overtake each other. All of it is made in the namespaces of the process that imports this, and
ends with it.
"""
import ctypes
import fcntl
import heapq
import os
import random
import select
import struct
import subprocess
import threading
import time

LIBC = ctypes.CDLL(None, use_errno=True)
CLONE_NEWNET = 0x40000000

# Of a device for packets (linux/if_tun.h): the call that names it, and one of IP packets alone.
TUNSETIFF, TUN, WITHOUT_FRONT = 0x400454CA, 0x0001, 0x1000

# Where the clients of this thread find the caster.
here = threading.local()


def ip(*words):
    subprocess.run(['ip', *words], check=True, stdout=subprocess.DEVNULL)


def prepare():
    """The namespaces of this process are as new ones are: loopback is up, and none has a name
    yet."""
    os.makedirs('/run/netns', exist_ok=True)
    subprocess.run(['mount', '-t', 'tmpfs', 'tmpfs', '/run/netns'], check=True)
    ip('link', 'set', 'lo', 'up')


def enter(name):
    """This thread goes to the namespace of this name; what it opens there stays there."""
    handle = os.open('/run/netns/' + name, os.O_RDONLY)
    try:
        if LIBC.setns(handle, CLONE_NEWNET):
            raise OSError(ctypes.get_errno(), 'setns')
    finally:
        os.close(handle)


class Side:
    """A namespace with a cable to the caster's."""

    def __init__(self, name, number):
        self.name, self.number = name, number
        self.caster, self.address = '10.9.%d.1' % number, '10.9.%d.2' % number
        self.far, self.near = 'far%d' % number, 'near%d' % number
        ip('netns', 'add', name)
        ip('-n', name, 'link', 'set', 'lo', 'up')
        self.connect()
        ip('addr', 'add', self.caster, 'peer', self.address, 'dev', self.near)
        ip('-n', name, 'addr', 'add', self.address, 'peer', self.caster, 'dev', self.far)
        ip('link', 'set', self.near, 'up')
        ip('-n', name, 'link', 'set', self.far, 'up')

    def connect(self):
        ip('link', 'add', self.near, 'type', 'veth', 'peer', 'name', self.far, 'netns', self.name)

    def pull(self):
        """The cable is pulled out at this side."""
        ip('-n', self.name, 'link', 'set', self.far, 'down')

    def plug(self):
        ip('-n', self.name, 'link', 'set', self.far, 'up')

    def call(self, work):
        """What this gives where it runs in a thread at this side."""
        given, wrong = [], []

        def run():
            try:
                enter(self.name)
                here.caster = self.caster
                given.append(work())
            except Exception as fault:
                wrong.append(fault)

        thread = threading.Thread(target=run)
        thread.start()
        thread.join()
        if wrong:
            raise wrong[0]
        return given[0]

    def vanish(self, clients):
        """The side is gone, and has told nobody: its cable is pulled, its sockets are forgotten,
        and its namespace ends."""
        self.pull()
        for one in clients:
            one.reset()
        ip('netns', 'del', self.name)
        until = time.monotonic() + 10
        while self.near in cables():
            if time.monotonic() > until:
                raise RuntimeError('the side %s does not vanish' % self.name)
            time.sleep(0.02)


def cables():
    """The cables and roads that end here."""
    with open('/proc/thread-self/net/dev') as file:
        return [line.split(':')[0].strip() for line in file]


def device(name):
    """A new device for packets in the namespace of this thread; what is read of it was sent
    there."""
    handle = os.open('/dev/net/tun', os.O_RDWR | os.O_NONBLOCK)
    fcntl.ioctl(handle, TUNSETIFF, struct.pack('16sH22x', name.encode(), TUN | WITHOUT_FRONT))
    return handle


class Road(Side):
    """A namespace that is reached by a road. Of the packets of both ways this share is lost; each
    other one comes after so many seconds, give or take the spread, for itself, so that they
    overtake each other. The dice are those of a seed."""

    def __init__(self, name, number, seed, loss=0.0, delay=0.0, spread=0.0):
        self.loss, self.delay, self.spread = loss, delay, spread
        self.dice = random.Random(seed)
        self.sent = self.lost = self.overtaken = 0
        super().__init__(name, number)

    def connect(self):
        near, far = device(self.near), []

        def open_there():
            enter(self.name)
            far.append(device(self.far))

        thread = threading.Thread(target=open_there)
        thread.start()
        thread.join()
        threading.Thread(target=self.run, args=(near, far[0]), daemon=True).start()

    def run(self, near, far):
        """Carries packets for ever. Each is under way from its coming to its time."""
        under_way, newest = [], {near: 0, far: 0}
        while True:
            wait = max(0, under_way[0][0] - time.monotonic()) if under_way else 1
            for one in select.select([near, far], [], [], wait)[0]:
                self.take(one, far if one == near else near, under_way)
            while under_way and under_way[0][0] <= time.monotonic():
                _, number, to, packet = heapq.heappop(under_way)
                self.overtaken += number < newest[to]
                newest[to] = max(newest[to], number)
                try:
                    os.write(to, packet)
                except OSError:
                    # The other end is full or down: it is lost.
                    self.lost += 1

    def take(self, one, to, under_way):
        while True:
            try:
                packet = os.read(one, 65536)
            except OSError:
                return
            self.sent += 1
            if self.dice.random() < self.loss:
                self.lost += 1
                continue
            due = time.monotonic() + self.delay + self.dice.uniform(-self.spread, self.spread)
            heapq.heappush(under_way, (due, self.sent, to, packet))
