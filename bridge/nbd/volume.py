"""An nbdkit plugin that makes a volume of metad an NBD export. bridge/nbd/serve starts it.

usage: nbdkit --foreground python volume.py volume=d0 host=alpha folder=FOLDER metad=PROGRAM [until=FD] [lines=N]

FOLDER has the drives.tab, and PROGRAM is bin/metad. The first connection starts a run of metad in it, and from then on
requests are lines to it and its replies, through pipes. A request is answered when the replies to all of its lines are
`ok`, so what was answered is on the disk, and a flush has nothing to do. A refused line fails its request with an I/O
error. Where metad ends by itself, the server ends with status 1, and so each connection, with no request answered that
wasn't done.

A run of metad takes 1,048,576 lines, or N of them where that is given. Behind the reply to the last one that it can
take, it is told that no more lines come, and once it has ended the next run is started, which boots.

FD is the reading end of a pipe. Once its other end is closed, and the request in work is answered, the run is told that no
more lines come, and behind its end the server ends with status 0. By a signal nbdkit ends too, but it waits for its clients.
"""
import errno
import os
import re
import select
import subprocess
import sys
import threading
import time

import nbdkit

API_VERSION = 2

BLOCK = 512
# So many blocks one line reads, and so many lines are sent before all of their replies have to be there.
BATCH = 1024
# So many lines a run takes. It takes 2^32 bytes too, and so many lines have fewer: the longest write has 1,052.
LINES = 1 << 20
# So many blocks a volume can have.
BLOCKS = 1 << 40
# For so many seconds a next run is started anew where another run has the image.
PATIENCE = 10
PAST_END = b"refused E22 "

# nbdkit writes an exception to the log. Its text says what it has to, without the lines of this file.
sys.tracebacklimit = 0


class Refused(Exception):
    """A line was refused."""

    def __init__(self, line, reply):
        super().__init__(f"{line[:60].decode()}: {reply.decode(errors='replace')}")


class Unaligned(Exception):
    """A request isn't of whole blocks."""


class Ended(Exception):
    """There is no metad any more that does what lines say."""


def say(text):
    print(f"bridge: {text}", file=sys.stderr, flush=True)


class Run:
    """One run of metad."""

    def __init__(self, words, folder):
        # It has a session of its own, so that a Ctrl-C for the server doesn't end it in the middle of a write.
        pipes = {"stdin": subprocess.PIPE, "stdout": subprocess.PIPE, "bufsize": 0}
        self.process = subprocess.Popen(words, cwd=folder, start_new_session=True, **pipes)
        self.to = self.process.stdin.fileno()
        self.told = self.process.stdout.fileno()
        os.set_blocking(self.to, False)
        self.lines = 0
        self.begun = b""
        say(f"metad is process {self.process.pid}")

    def talk(self, lines):
        """Sends the lines, and gives the reply to each of them, as the list of its lines.

        It reads while it sends: a pipe holds 64 KiB, and else both sides could wait for room in one for ever.
        """
        self.lines += len(lines)
        rest = memoryview(b"".join(it + b"\n" for it in lines))
        replies, reply = [], []
        while len(replies) < len(lines):
            rest = self.send(rest)
            for it in self.receive(len(rest) > 0):
                reply.append(it)
                if it == b"ok" or it.startswith(b"refused "):
                    replies.append(reply)
                    reply = []
        if len(replies) > len(lines) or reply or self.begun:
            raise Ended("metad told more than it was asked")
        return replies

    def send(self, rest):
        """Sends as much as the pipe has room for, and gives what is left."""
        try:
            return rest[os.write(self.to, rest):] if rest else rest
        except BlockingIOError:
            return rest
        except BrokenPipeError:
            # What it told before it ended is there to be read, and then its end.
            return rest[:0]

    def receive(self, sending):
        """The next whole lines. There may be none, and where more is to be sent it doesn't wait for them."""
        wait = select.poll()
        wait.register(self.told, select.POLLIN)
        if sending:
            wait.register(self.to, select.POLLOUT)
        if self.told not in dict(wait.poll()):
            return []
        came = os.read(self.told, 1 << 20)
        if not came:
            raise Ended(self.describe_end())
        *whole, self.begun = (self.begun + came).split(b"\n")
        return whole

    def describe_end(self):
        status = self.process.wait()
        how = f"signal {-status}" if status < 0 else f"status {status}"
        page = ", which docs/refusals.md explains" if 2 <= status <= 10 else ""
        return f"metad ended by {how}{page}, behind {self.lines} lines at most"

    def finish(self):
        """Tells it that no more lines come, and waits for its end."""
        self.process.stdin.close()
        more = self.process.stdout.read()
        status = self.process.wait()
        if more or status not in (0, 1):
            raise Ended(self.describe_end())

    def abandon(self):
        """Lets go of it, whatever it does."""
        self.process.stdin.close()
        self.process.stdout.close()
        self.process.wait()

    def has_block(self, volume, at):
        """Whether the volume has this block."""
        line = b"read %s %d 1" % (volume, at)
        reply = self.talk([line])[0]
        if reply[-1].startswith(PAST_END):
            return False
        check(line, reply, 1)
        return True

    def read(self, volume, at, count):
        line = b"read %s %d %d" % (volume, at, count)
        reply = self.talk([line])[0]
        check(line, reply, count)
        return b"".join(block_of(it, at + number) for number, it in enumerate(reply[:-1]))

    def write(self, lines):
        for line, reply in zip(lines, self.talk(lines)):
            check(line, reply, 0)


def check(line, reply, count):
    """Takes a reply of so many lines and `ok` alone."""
    if reply[-1] != b"ok":
        raise Refused(line, reply[-1])
    if len(reply) != count + 1:
        raise Ended(f"metad told {len(reply) - 1} blocks in place of {count}")


def block_of(told, number):
    """The block in a line of a reply, as `5 ab`, which leaves out the zeros at its end, or `5 -` where it has no other bytes."""
    head, _, digits = told.partition(b" ")
    try:
        block = b"" if digits == b"-" else bytes.fromhex(digits.decode())
    except ValueError:
        block = None
    if block is None or len(block) > BLOCK or head != b"%d" % number:
        raise Ended(f"metad told no block {number}")
    return block.ljust(BLOCK, b"\0")


def halve(has_block):
    """How many blocks a volume has, found by halving: the first number that isn't one of a block."""
    low, high = 0, BLOCKS
    while low < high:
        middle = (low + high) // 2
        if has_block(middle):
            low = middle + 1
        else:
            high = middle
    return low


class Volume:
    """The volume, over as many runs as it takes."""

    def __init__(self):
        self.words = {}
        self.limit = LINES
        self.run = None
        self.blocks = None
        self.until = None

    def name(self):
        return self.words["volume"].encode()

    def start(self):
        """Starts a run that serves the volume."""
        run = Run([self.words["metad"], self.words["host"]], self.words["folder"])
        try:
            self.look(run)
        except BaseException:
            run.abandon()
            raise
        self.run = run

    def look(self, run):
        """Finds the volume's size, and from the second run on, whether it still is what it was."""
        if self.blocks is None:
            self.blocks = halve(lambda at: run.has_block(self.name(), at))
            say(f"{self.words['volume']} has {self.blocks} blocks")
        elif not run.has_block(self.name(), self.blocks - 1) or run.has_block(self.name(), self.blocks):
            raise Ended(f"{self.words['volume']} hasn't {self.blocks} blocks any more")

    def start_next(self):
        """Ends the run and starts the next. Another run can have got in between, so it tries for some seconds."""
        self.run.finish()
        until = time.monotonic() + PATIENCE
        while True:
            try:
                return self.start()
            except Refused as refused:
                say(f"the next run of metad doesn't serve the volume yet: {refused}")
                if time.monotonic() > until:
                    raise Ended("the next run of metad doesn't serve the volume") from None
            time.sleep(0.2)

    def run_for(self, lines):
        """The run for so many lines more."""
        if self.run.lines + lines > self.limit:
            self.start_next()
        return self.run

    def read(self, at, count):
        parts = [(it, min(BATCH, at + count - it)) for it in range(at, at + count, BATCH)]
        return b"".join(self.run_for(1).read(self.name(), *it) for it in parts)

    def write(self, at, blocks):
        """Writes the blocks, each without the zeros at its end: metad puts them there."""
        lines = (b"write %s %d %s" % (self.name(), at + number, digits_of(it)) for number, it in enumerate(blocks))
        self.send_all(lines, len(blocks))

    def zero(self, at, count):
        self.send_all((b"write %s %d 00" % (self.name(), at + it) for it in range(count)), count)

    def send_all(self, lines, count):
        for begin in range(0, count, BATCH):
            size = min(BATCH, count - begin)
            self.run_for(size).write([next(lines) for _ in range(size)])


def digits_of(block):
    return block.rstrip(b"\0").hex().encode() or b"00"


VOLUME = Volume()
# nbdkit keeps requests apart, and this keeps a new connection apart from them.
ONE = threading.Lock()


def end_server(why):
    """Ends this process, and with it each connection: a request that isn't answered by then has failed."""
    say(why)
    if VOLUME.run is not None:
        VOLUME.run.abandon()
    os._exit(1)


def request(carry_out):
    """A request of a client. What is refused is an error to it, and anything else is the end of the server: a reply
    that wasn't read yet must not be taken for that to a line of the next request."""

    def guarded(*given):
        with ONE:
            try:
                return carry_out(*given)
            except Refused:
                nbdkit.set_error(errno.EIO)
                raise
            except Unaligned:
                nbdkit.set_error(errno.EINVAL)
                raise
            except BaseException as end:
                return end_server(f"{type(end).__name__}: {end}")

    return guarded


def end_behind(pipe):
    """Ends the server once the other end of the pipe is closed, and no request is in work."""
    while os.read(pipe, 1):
        pass
    with ONE:
        cleanup()
        os._exit(0)


def blocks_of(offset, count):
    """The first block of so many bytes there, and how many."""
    if offset % BLOCK or count % BLOCK:
        raise Unaligned(f"{count} bytes at {offset} aren't whole blocks of {BLOCK}, which the export told to be its minimum")
    return offset // BLOCK, count // BLOCK


def thread_model():
    return nbdkit.THREAD_MODEL_SERIALIZE_ALL_REQUESTS


def config(key, value):
    if key == "lines":
        VOLUME.limit = min(int(value), LINES)
    elif key == "until":
        VOLUME.until = int(value)
    elif key in ("volume", "host", "folder", "metad"):
        VOLUME.words[key] = value
    else:
        raise ValueError(f"{key} isn't one of its words")


def config_complete():
    lacking = [it for it in ("volume", "host", "folder", "metad") if it not in VOLUME.words]
    if lacking:
        raise ValueError(f"it needs {' '.join(it + '=' for it in lacking)}")
    if not re.fullmatch("d[0-9]+", VOLUME.words["volume"]):
        raise ValueError(f"{VOLUME.words['volume']} is no volume's name, as d0 is")
    if VOLUME.limit < 2 * BATCH:
        raise ValueError(f"a run has {2 * BATCH} lines at least")


def after_fork():
    if VOLUME.until is not None:
        threading.Thread(target=end_behind, args=(VOLUME.until,), daemon=True).start()


def open(readonly):
    with ONE:
        if VOLUME.run is None:
            VOLUME.start()
    return True


def export_description(handle):
    return f"volume {VOLUME.words['volume']} of metad: an answered write is on the disk"


def get_size(handle):
    return VOLUME.blocks * BLOCK


def block_size(handle):
    return BLOCK, 4096, 32 << 20


def can_write(handle):
    return True


def can_flush(handle):
    return True


def can_fua(handle):
    return nbdkit.FUA_NATIVE


def can_zero(handle):
    return True


def can_fast_zero(handle):
    return False


def can_multi_conn(handle):
    return True


@request
def pread(handle, into, offset, flags):
    into[:] = VOLUME.read(*blocks_of(offset, len(into)))


@request
def pwrite(handle, data, offset, flags):
    at, count = blocks_of(offset, len(data))
    data = bytes(data)
    VOLUME.write(at, [data[it:it + BLOCK] for it in range(0, count * BLOCK, BLOCK)])


@request
def zero(handle, count, offset, flags):
    VOLUME.zero(*blocks_of(offset, count))


@request
def flush(handle, flags):
    """An answered write is synced already."""


def cleanup():
    """What nbdkit calls before it ends."""
    try:
        if VOLUME.run is not None:
            VOLUME.run.finish()
    except (Ended, OSError) as end:
        end_server(f"{type(end).__name__}: {end}")
