#!/usr/bin/env python3
"""Runs the frame program, crates/recover/out/recover, where reads and writes fail.

    faults.py                  every fault below
    faults.py --program PATH   of another program
    faults.py --seed S         other cuts and interruptions

    cut        a TCP socket that is reset after every line of 01's example and
               within each, and one that is closed there
    slow       a pipe and a socket that give one byte at a time; a program that
               is stopped and goes on; a terminal with one end of input
    unread     a directory, a closed descriptor, one open for writing only, one
               that has nothing and does not wait
    unwritten  a full device, a closed descriptor, one open for reading only, a
               reader that goes away, a file that may not grow
    long       65,536 bytes, 65,537, ten million, endless ones
    reads      reads that answer what a plan says: interrupted, failed, short
    writes     writes that answer what a plan says

The plans are carried out by a read and a write of our own (LD_PRELOAD), which
also note each call.

What is asked. An input that could not be read to its end is answered by nothing
on standard output and a message on standard error: no part of a frame passes
for a whole one. Any other is answered by its whole answer, that of reference.py
(of 01's example, 01's own with 02's role lines) and nothing on standard error; or, where a write
failed, by a front part of it and a message; so also where nobody reads what it
writes, since a program of Rattle ignores SIGPIPE. Every run ends, with status 0.

Says for each kind how many runs there were and how many were wrong, and ends
with status 1 if any was.
"""

import argparse
import array
import errno
import fcntl
import os
import pty
import random
import resource
import shutil
import signal
import socket
import struct
import subprocess
import sys
import tempfile
import termios
import threading
import time

import cases
import generate
import reference

HERE = os.path.dirname(os.path.abspath(__file__))
LIMIT = 60  # seconds for a run
MOST = 65537  # bytes that are read at most

EXAMPLE = open(os.path.join(HERE, "frames", "example.frame"), "rb").read()
EXAMPLE_ANSWER = b"""(result 1)
(grow 1 8 0 0 no)
(role plant 1 8 0 0)
(role depot 0 0 0 0)
(role dealer 0 0 0 0)
(cell (0 0) 0)
(cell (1 0) 1)
(cell (2 0) 2)
(hole (-1 0))
(hole (0 -1))
(hole (0 1))
(hole (1 -1))
(hole (1 1))
(hole (2 -1))
(hole (2 1))
(hole (3 0))
"""  # 01, "Frame and result", and 02, 7/14

SHADED = cases.text(cases.SHADED)  # the same with shades, and with local
PATCHED = cases.text(cases.PATCHED)  # that with the labels in two sets
ROLED = cases.text(cases.ROLED)  # 01's example with a pass of each role

NOT_READ = b"recover: standard input cannot be read\n"
NOT_WRITTEN = b"recover: standard output cannot be written\n"
OVERFULL = b"(refused 2 0)\n"

SHIM = r"""
#include <errno.h>
#include <fcntl.h>
#include <stdio.h>
#include <stdlib.h>
#include <string.h>
#include <sys/syscall.h>
#include <unistd.h>

/* The next word of a plan: i, e, s for EINTR, EIO, ENOSPC; z for 0; a number for at most so many bytes. 0 at its end. */
static char next(const char *name, size_t *most) {
    static const char *plans[2];
    static int begun[2];
    int which = name[0] == 'W';
    if (!begun[which])
        plans[which] = getenv(name), begun[which] = 1;
    const char *at = plans[which];
    if (!at || !*at)
        return 0;
    char word = *at;
    if (word >= '0' && word <= '9')
        *most = strtoul(at, (char **)&at, 10), word = 'n';
    else
        at++;
    if (*at == ' ')
        at++;
    plans[which] = at;
    return word;
}

static void note(char call, size_t room, long answer) {
    const char *path = getenv("CALLS");
    int fd = path ? syscall(SYS_openat, AT_FDCWD, path, O_WRONLY | O_CREAT | O_APPEND, 0600) : -1;
    char line[64];
    int n = snprintf(line, sizeof line, "%c %zu %ld\n", call, room, answer);
    if (fd >= 0)
        syscall(SYS_write, fd, line, n), syscall(SYS_close, fd);
}

static long carry_out(char call, const char *plan, long number, int fd, const void *buffer, size_t room) {
    size_t most = room;
    char word = next(plan, &most);
    int error = word == 'i' ? EINTR : word == 'e' ? EIO : word == 's' ? ENOSPC : 0;
    long answer = error ? -1 : word == 'z' ? 0 : syscall(number, fd, buffer, most < room ? most : room);
    if (!error && answer < 0)
        error = errno;
    note(call, room, error ? -error : answer);
    if (error)
        errno = error;
    return answer;
}

ssize_t read(int fd, void *buffer, size_t room) {
    return fd ? syscall(SYS_read, fd, buffer, room) : carry_out('r', "READS", SYS_read, fd, buffer, room);
}

ssize_t write(int fd, const void *buffer, size_t room) {
    return fd != 1 ? syscall(SYS_write, fd, buffer, room) : carry_out('w', "WRITES", SYS_write, fd, buffer, room);
}
"""


def answer_of(data):
    """The model's answer; of 01's example, 01's and 02's."""
    return EXAMPLE_ANSWER if data == EXAMPLE else reference.result(data).encode()


def long_frame(corners=1000):
    """An accepted frame whose answer is several times as long as the program's output buffer, and as a small pipe."""
    lines = list(cases.HEAD)
    lines += [cases.corner(reference.to_hex(float(10 * k)), reference.to_hex(10.0)) for k in range(corners)]
    lines += [f"(label {k} ({k // 100 - 2} {k % 100 - 50}))" for k in range(corners)]
    return cases.text(lines)


def bytes_left(fd):
    """How many bytes of a pipe or a socket nobody has read yet."""
    left = array.array("i", [0])
    fcntl.ioctl(fd, termios.FIONREAD, left)
    return left[0]


def until(holds):
    """Waits until it holds; whether it did in time."""
    end = time.monotonic() + LIMIT
    while not holds():
        if time.monotonic() > end:
            return False
        time.sleep(0.0002)
    return True


class Seen:
    """What a run did: the bytes on both outputs, its status; None where it did not end in time."""

    def __init__(self, out, err, status):
        self.out, self.err, self.status = out, err, status

    def __str__(self):
        def short(data):
            return "not looked at" if data is None else repr(data if len(data) < 200 else data[:100] + b".." + data[-60:])

        ended = "did not end" if self.status is None else f"ended by signal {-self.status}" if self.status < 0 else f"status {self.status}"
        return f"output {short(self.out)}, error {short(self.err)}, {ended}"


class Faults:
    def __init__(self, program, seed, folder):
        self.program, self.seed, self.folder = program, seed, folder
        self.kind, self.count, self.wrong, self.all_wrong = "", 0, 0, 0

    # ---- counting

    def begin(self, kind):
        self.kind, self.count, self.wrong = kind, 0, 0

    def done(self, what):
        print(f"faults.py: {self.kind}: {self.count} runs, {self.wrong} wrong; {what}", flush=True)
        self.all_wrong += self.wrong

    def right(self, name, seen, holds, asked, calls=""):
        """One run; `calls` says what was wrong with its reads or writes."""
        self.count += 1
        if calls or not holds:
            self.wrong += 1
            print(f"faults.py: WRONG: {self.kind}: {name}: {seen}; asked: {asked}{calls and '; ' + calls}", flush=True)

    def answered(self, name, seen, data, calls=""):
        holds = (seen.out, seen.err, seen.status) == (answer_of(data), b"", 0)
        self.right(name, seen, holds, "the whole answer, and nothing on standard error", calls)

    def not_read(self, name, seen, calls=""):
        holds = (seen.out, seen.err, seen.status) == (b"", NOT_READ, 0)
        self.right(name, seen, holds, "nothing on standard output, the message on standard error", calls)

    def not_written(self, name, seen, data, out=None, calls=""):
        """A front part of the answer (`out`, where it is known), and the message."""
        front = seen.out is None or answer_of(data).startswith(seen.out) and out in (None, seen.out)
        self.right(name, seen, front and (seen.err, seen.status) == (NOT_WRITTEN, 0), "a front part of the answer, and the message", calls)

    # ---- running

    def start(self, stdin, stdout=subprocess.PIPE, stderr=subprocess.PIPE, **more):
        return subprocess.Popen([self.program], stdin=stdin, stdout=stdout, stderr=stderr, **more)

    def end(self, run):
        """Waits for the end of a run, and takes what it wrote."""
        try:
            out, err = run.communicate(timeout=LIMIT)
            return Seen(out, err, run.returncode)
        except subprocess.TimeoutExpired:
            run.kill()
            out, err = run.communicate()
            return Seen(out, err, None)

    def on(self, data, **more):
        """A run on a file with these bytes, and how many of them were read."""
        with tempfile.TemporaryFile(dir=self.folder) as file:
            file.write(data)
            file.seek(0)
            seen = self.end(self.start(file, **more))
            return seen, os.lseek(file.fileno(), 0, os.SEEK_CUR)

    # ---- cut

    def socket_run(self, give):
        """A run whose standard input is a TCP socket; `give` writes to the other end of it."""
        with socket.create_server(("127.0.0.1", 0)) as server:
            other = socket.create_connection(server.getsockname())
            here, _ = server.accept()
        with here:
            run = self.start(here)
            give(other, here)
            seen = self.end(run)
        other.close()
        return seen

    def cut(self):
        def gives(part, reset, wait):
            def give(other, here):
                other.sendall(part)
                if wait:
                    until(lambda: bytes_left(here.fileno()) == 0)
                if reset:
                    other.setsockopt(socket.SOL_SOCKET, socket.SO_LINGER, struct.pack("ii", 1, 0))
                other.close()

            return give

        self.begin("cut")
        ends = [0]
        for line in EXAMPLE.split(b"\n")[:-1]:
            ends += [ends[-1] + len(line) // 2, ends[-1] + len(line), ends[-1] + len(line) + 1]
            ends[-3:-1] = sorted(set(ends[-3:-1]))
        for at in sorted(set(ends)):
            for wait in (True, False):
                self.not_read(f"reset after {at} bytes", self.socket_run(gives(EXAMPLE[:at], True, wait)))
            self.answered(f"closed after {at} bytes", self.socket_run(gives(EXAMPLE[:at], False, True)), EXAMPLE[:at])
        self.done("a reset socket is never the end of a frame")

    # ---- slow

    def slow(self):
        def give(send, descriptor, data):
            for byte in data:
                send(bytes([byte]))
                until(lambda: bytes_left(descriptor) == 0)

        def through_pipe(data):
            here, other = os.pipe()
            run = self.start(here)
            give(lambda byte: os.write(other, byte), here, data)
            os.close(other)
            os.close(here)
            return self.end(run)

        def through_socket(data):
            def send(other, here):
                other.setsockopt(socket.IPPROTO_TCP, socket.TCP_NODELAY, 1)
                give(other.sendall, here.fileno(), data)
                other.close()

            return self.socket_run(send)

        self.begin("slow")
        for data in (EXAMPLE, EXAMPLE[:100], SHADED):
            self.answered("one byte at a time through a pipe", through_pipe(data), data)
            self.answered("one byte at a time through a socket", through_socket(data), data)
        self.answered("stopped and continued", self.stopped(EXAMPLE), EXAMPLE)
        for data in (EXAMPLE, cases.text(cases.HEAD), b""):
            self.answered("a terminal with one end of input", self.at_terminal(data), data)
        self.done("one end of input is enough at a terminal")

    def stopped(self, data):
        here, other = os.pipe()
        run = self.start(here)
        os.write(other, data[:50])
        until(lambda: bytes_left(here) == 0)
        for part in (data[50:90], data[90:]):
            os.kill(run.pid, signal.SIGSTOP)
            until(lambda: os.waitpid(run.pid, os.WUNTRACED | os.WNOHANG)[0])
            os.kill(run.pid, signal.SIGCONT)
            os.write(other, part)
        os.close(other)
        os.close(here)
        return self.end(run)

    def at_terminal(self, data):
        other, here = pty.openpty()
        modes = termios.tcgetattr(here)
        modes[3] &= ~termios.ECHO
        termios.tcsetattr(here, termios.TCSANOW, modes)
        run = self.start(here)
        os.write(other, data + b"\x04")
        seen = self.end(run)
        os.close(here)
        os.close(other)
        return seen

    # ---- unread

    def unread(self):
        self.begin("unread")
        folder = os.open(self.folder, os.O_RDONLY)
        self.not_read("a directory", self.end(self.start(folder)))
        os.close(folder)
        self.not_read("a closed descriptor", self.end(self.start(None, preexec_fn=lambda: os.close(0))))
        writing = os.open(os.devnull, os.O_WRONLY)
        self.not_read("open for writing only", self.end(self.start(writing)))
        os.close(writing)
        for part in (b"", EXAMPLE[:60], cases.text(cases.HEAD), EXAMPLE):
            here, other = os.pipe()
            os.set_blocking(here, False)
            os.write(other, part)
            self.not_read(f"{len(part)} bytes, then a read that does not wait", self.end(self.start(here)))
            os.close(here)
            os.close(other)
        both = self.end(self.start(None, stderr=None, preexec_fn=lambda: (os.close(0), os.close(2))))
        self.right("closed, and standard error too", both, (both.out, both.status) == (b"", 0), "nothing on standard output")
        self.done("what cannot be read is answered by a message")

    # ---- unwritten

    def unwritten(self):
        self.begin("unwritten")
        long = long_frame()
        refused = EXAMPLE[:100]
        for data in (EXAMPLE, refused, long):
            for name, path, flags in (("a full device", "/dev/full", os.O_WRONLY), ("open for reading only", os.devnull, os.O_RDONLY)):
                out = os.open(path, flags)
                self.not_written(name, self.on(data, stdout=out)[0], data)
                os.close(out)
            self.not_written("a closed descriptor", self.on(data, stdout=None, preexec_fn=lambda: os.close(1))[0], data)
        full = os.open("/dev/full", os.O_WRONLY)
        seen = self.on(EXAMPLE, stdout=full, stderr=full)[0]
        self.right("both outputs full", seen, seen.status == 0, "status 0")
        os.close(full)
        for ignored in (False, True):
            self.reader_away(long, ignored)
        for most in (0, 1, 100, 4000, 5000):
            self.limited(long, most)
        self.done("what was written is a front part of the answer, and there is a message")

    def reader_away(self, data, ignored):
        """The first 4,096 bytes are read, then nobody reads any more. The write fails, whether SIGPIPE was ignored before the start or not."""
        here, other = os.pipe()
        fcntl.fcntl(other, fcntl.F_SETPIPE_SZ, 4096)
        with tempfile.TemporaryFile(dir=self.folder) as file:
            file.write(data)
            file.seek(0)
            run = self.start(file, stdout=other, restore_signals=not ignored)
            os.close(other)
            out = os.read(here, 4096)
            os.close(here)
            seen = self.end(run)
        seen.out = out
        front = len(out) > 0 and answer_of(data).startswith(out) and out != answer_of(data)
        name = "a reader that goes away" + ", SIGPIPE ignored" * ignored
        self.right(name, seen, front and (seen.err, seen.status) == (NOT_WRITTEN, 0), "a front part, and the message")

    def limited(self, data, most):
        """Standard output is a file that may have so many bytes and no more (RLIMIT_FSIZE)."""

        def limit():
            signal.signal(signal.SIGXFSZ, signal.SIG_IGN)
            resource.setrlimit(resource.RLIMIT_FSIZE, (most, most))

        with tempfile.TemporaryFile(dir=self.folder) as out:
            seen = self.on(data, stdout=out, preexec_fn=limit)[0]
            out.seek(0)
            seen.out = out.read()
        self.not_written(f"a file of at most {most} bytes", seen, data, answer_of(data)[:most])

    # ---- long

    def long(self):
        self.begin("long")
        exact = {name: (data, result) for name, data, result in cases.checked() if name.startswith("bytes-6553")}
        texts = [(name, data, result.encode()) for name, (data, result) in exact.items()]
        texts += [("ten million bytes", b"x" * 10_000_000, OVERFULL), ("ten million line feeds", b"\n" * 10_000_000, OVERFULL)]
        for name, data, result in texts:
            seen, at = self.on(data)
            right = (seen.out, seen.err, seen.status) == (result, b"", 0) and at == min(len(data), MOST)
            self.right(f"{name}, from a file", f"{seen}, {at} bytes read", right, f"{result!r}, and at most {MOST} bytes read")
            seen, given = self.fed(data, len(data))
            right = (seen.out, seen.err, seen.status) == (result, b"", 0)
            self.right(f"{name}, through a pipe", seen, right, f"{result!r}")
        zeros = os.open("/dev/zero", os.O_RDONLY)
        self.right("endless zeros", seen := self.end(self.start(zeros)), (seen.out, seen.err, seen.status) == (OVERFULL, b"", 0), f"{OVERFULL!r}")
        os.close(zeros)
        for part in (b"x", EXAMPLE, b"(corner (41200000 41200000) 00000000)\n"):
            seen, given = self.fed(part * (4096 // len(part) + 1), None)
            right = (seen.out, seen.err, seen.status) == (OVERFULL, b"", 0) and given <= MOST + 2 * 65536
            self.right("a writer that never stops", f"{seen}, {given} bytes given", right, f"{OVERFULL!r}, soon")
        self.done(f"no more than {MOST} bytes are read")

    def fed(self, data, most):
        """A run on a pipe into which a thread writes these bytes, over and over where there is no most; and how many it could write."""
        here, other = os.pipe()
        given = 0

        def write():
            nonlocal given
            try:
                while most is None or given < most:
                    given += os.write(other, data if most is None else data[given : given + 65536])
            except BrokenPipeError:
                pass
            os.close(other)

        run = self.start(here)
        os.close(here)
        writer = threading.Thread(target=write)
        writer.start()
        seen = self.end(run)
        writer.join(LIMIT)
        return seen, given

    # ---- plans

    def planned(self, data, reads="", writes=""):
        """A run whose calls go by a plan, and the calls: what each had room for, and what it answered (an error as a negative number)."""
        calls = os.path.join(self.folder, "calls")
        if os.path.exists(calls):
            os.remove(calls)
        environment = dict(os.environ, LD_PRELOAD=os.path.join(self.folder, "shim.so"), READS=reads, WRITES=writes, CALLS=calls)
        seen, _ = self.on(data, env=environment)
        noted = [line.split() for line in open(calls)] if os.path.exists(calls) else []
        made = {"r": [], "w": []}
        for call, room, answer in noted:
            made[call].append((int(room), int(answer)))
        return seen, made["r"], made["w"]

    def reads_amiss(self, reads):
        """Every read has the unfilled rest of the buffer, and nothing is read after the end, a failure or the last byte that has room."""
        at = tries = 0
        for number, (room, answer) in enumerate(reads, 1):
            tries += answer == -errno.EINTR
            over = answer == 0 or answer < 0 and (answer != -errno.EINTR or tries > 1000) or at + answer == MOST
            if room != MOST - at or over != (number == len(reads)):
                return f"read {number} of {len(reads)} had room for {room} bytes after {at} and answered {answer}"
            at += max(answer, 0)
        return ""

    def short(self, rng, size):
        """A plan of short reads of so many bytes in all."""
        plan = ""
        while size:
            part = rng.randrange(1, min(size, 2000) + 1)
            plan += f"{part} "
            size -= part
        return plan

    def reads(self):
        rng = random.Random(self.seed)
        self.begin("reads")
        size = len(EXAMPLE)

        def run(name, data, plan, failed=False, ends=None):
            seen, reads, _ = self.planned(data, reads=plan)
            if failed:
                self.not_read(name, seen, self.reads_amiss(reads))
            else:
                self.answered(name, seen, data if ends is None else data[:ends], self.reads_amiss(reads))

        run("no fault", EXAMPLE, "")
        run("3 interruptions", EXAMPLE, "i i i ")
        run("interruptions between bytes", EXAMPLE, "1 i " * size)
        run("an interruption before the end", EXAMPLE, f"{size} i ")
        run("1,000 interruptions", EXAMPLE, "i " * 1000)
        run("1,001 interruptions", EXAMPLE, "i " * 1001, failed=True)
        run("1,001 interruptions between bytes", EXAMPLE, "i i i i 1 " * 240 + "i " * 41, failed=True)
        run("1,000 interruptions, then a failure", EXAMPLE, "i " * 1000 + "e ", failed=True)
        for at in range(size + 1):
            front = f"{at} " if at else ""
            run(f"a failure after {at} bytes, then the end", EXAMPLE, front + "e z ", failed=True)
            run(f"a failure after {at} bytes, then the rest", EXAMPLE, front + "e ", failed=True)
            run(f"the end after {at} bytes, then the rest", EXAMPLE, front + "z ", ends=at)
        for name, data in (("with shades", SHADED), ("with two sets", PATCHED), ("with as lines", ROLED)):
            at = 0
            for line in data.splitlines(keepends=True):
                at += len(line)
                run(f"{name}, a failure after {at} bytes", data, f"{at} e z ", failed=True)
                run(f"{name}, the end after {at} bytes", data, f"{at} z ", ends=at)
        for name, data in generate.frames(self.seed, 100):
            plan = "".join(rng.choice(("i ", f"{rng.randrange(1, 200)} ", f"{rng.randrange(1, 5000)} ")) for _ in range(rng.randrange(60)))
            run(f"{name}, short and interrupted reads", data, plan)
            run(f"{name}, short reads and a failure", data, self.short(rng, rng.randrange(len(data) + 1)) + rng.choice(("e ", "e z ")), failed=True)
        for name, data, _ in cases.checked():
            if name.startswith("bytes-6553"):
                run(f"{name}, short reads", data, self.short(rng, len(data)))
        self.done("interrupted reads are tried again, 1,000 times at most; a failed one is never the end")

    def writes(self):
        rng = random.Random(self.seed)
        self.begin("writes")
        long = long_frame()

        def run(name, data, plan):
            seen, _, writes = self.planned(data, writes=plan)
            whole = answer_of(data)
            taken = sum(max(answer, 0) for _, answer in writes)
            failed = [number for number, (_, answer) in enumerate(writes) if answer <= 0]
            amiss = "" if failed in ([], [len(writes) - 1]) else f"written on after a write that failed: {writes}"
            if failed:
                self.not_written(name, seen, data, whole[:taken], amiss)
            else:
                self.answered(name, seen, data, amiss)

        for data in (EXAMPLE, EXAMPLE[:100], SHADED, long):
            size = len(answer_of(data))
            run("short writes", data, "1 7 100 " * 100)
            for fault in "esiz":
                for at in sorted({0, 1, size // 2, size - 1, size, min(4096, size)}):
                    run(f"{fault} after {at} bytes", data, (f"{at} " if at else "") + f"{fault} ")
            for _ in range(20):
                run("short writes and a fault", data, "".join(f"{rng.randrange(1, 3000)} " for _ in range(rng.randrange(8))) + rng.choice("esiz") + " ")
        self.done("after a failed write there is no other, and a message")


def main():
    options = argparse.ArgumentParser(description=__doc__, formatter_class=argparse.RawDescriptionHelpFormatter)
    options.add_argument("--program", default=os.path.join(HERE, "..", "crates", "recover", "out", "recover"))
    options.add_argument("--seed", type=int, default=1)
    options = options.parse_args()
    if not os.path.exists(options.program):
        sys.exit("faults.py: crates/recover/out/recover is missing: rt run in crates/recover builds it")
    if not shutil.which("gcc"):
        sys.exit("faults.py: there is no gcc on this machine: reads and writes cannot be made to fail")
    with tempfile.TemporaryDirectory() as folder:
        with open(os.path.join(folder, "shim.c"), "w") as source:
            source.write(SHIM)
        subprocess.run(["gcc", "-O1", "-shared", "-fPIC", "-o", os.path.join(folder, "shim.so"), source.name], check=True)
        faults = Faults(os.path.abspath(options.program), options.seed, folder)
        for kind in (faults.cut, faults.slow, faults.unread, faults.unwritten, faults.long, faults.reads, faults.writes):
            kind()
    if faults.all_wrong:
        sys.exit(f"faults.py: {faults.all_wrong} runs were wrong")
    print("faults.py: none was wrong")


if __name__ == "__main__":
    main()
