"""Runs a member, as ./srm does, so that a signal makes it leave as the end of its input does.

The program knows no signals: one that comes would end it at once, without a farewell, and the others of its session would wait for it. So it is started with INT, TERM
and HUP ignored, and reads what is handed to it here: ./srm has its own standard input on descriptor 3, since Python doesn't begin where that is a directory. The first of
these signals ends what it reads: the member stays for its time and leaves. The second kills it.

The status is the program's; 128 + N where it was killed by signal N, or killed here at a second signal N; 1 and `srm: input` where the input of a live member can't be read
and the program ends with 0; 127 where it can't be started."""
import contextlib
import fcntl
import os
import select
import signal
import sys
import termios

SIGNALS = (signal.SIGINT, signal.SIGTERM, signal.SIGHUP)
# What a pipe holds at most, and what is read at once: what stands in it when a signal comes is still drawn, so it is little.
ROOM = 4_096
INPUT = 3
# What ends the input at a terminal, where a line begins.
END = b"\x04"


class Member:
    """The running program, and the end from which it is fed. `is_fed` is whether what is typed goes to it."""

    def __init__(self, words, out, into):
        self.words, self.into, self.is_fed = words, into, True
        os.set_blocking(into, False)
        self.process = os.fork()
        if self.process == 0:
            self.become(out)

    def become(self, out):
        """Becomes the program. What is ignored stays so in it, and the signals are blocked until then, so that none comes between."""
        try:
            os.dup2(out, 0)
            os.close(INPUT)
            for number in SIGNALS:
                signal.signal(number, signal.SIG_IGN)
            # Python ignores these; the program is to begin with them as it would without.
            for number in (signal.SIGPIPE, signal.SIGXFSZ):
                signal.signal(number, signal.SIG_DFL)
            signal.pthread_sigmask(signal.SIG_UNBLOCK, {*SIGNALS, signal.SIGCHLD})
            os.execv(self.words[0], self.words)
        except OSError as error:
            os.write(2, f"srm: can't start {self.words[0]}: {os.strerror(error.errno)}\n".encode())
        finally:
            os._exit(127)

    def write(self, text):
        """Hands on what it has room for. What is left of it; nothing where the program reads no more."""
        try:
            return text[os.write(self.into, text) :]
        except BlockingIOError:
            return text
        except OSError:
            return self.end_input()

    def status(self):
        """Its status, or None while it runs."""
        process, ended = os.waitpid(self.process, os.WNOHANG)
        return None if process == 0 else os.waitstatus_to_exitcode(ended)

    def kill(self):
        os.kill(self.process, signal.SIGKILL)
        os.waitpid(self.process, 0)


class Live(Member):
    """A live member, which draws what is typed. It reads from a pipe."""

    # Where what is typed can't be read, it leaves, and that is told.
    needs_input = True

    def __init__(self, words):
        out, into = os.pipe()
        fcntl.fcntl(into, fcntl.F_SETPIPE_SZ, ROOM)
        super().__init__(words, out, into)
        os.close(out)

    def given(self, text):
        """What is handed on of what was typed."""
        return text

    def end_input(self):
        """Closes the pipe, if it is open: the program then reads what stands in it, and the end. What is left to be handed on: nothing."""
        if self.into is not None:
            os.close(self.into)
            self.into, self.is_fed = None, False
        return b""


class Board(Member):
    """A member with a board. It reads a terminal alone, and leaves at its end; so it has one here, also where nobody types at one."""

    needs_input = False

    def __init__(self, words):
        into, out = os.openpty()
        _, _, control, _, *speeds, signs = termios.tcgetattr(out)
        # No sign but the end has a meaning there, and nothing is shown.
        signs = [b"\0"] * len(signs)
        signs[termios.VEOF] = END
        termios.tcsetattr(out, termios.TCSANOW, [0, 0, control, termios.ICANON, *speeds, signs])
        super().__init__(words, out, into)
        # Its other end stays open: else this one would be told again and again that the program reads no more.
        self.out = out
        self.has_ended = False
        self.is_fed = os.isatty(INPUT)

    def given(self, text):
        return text.replace(END, b"")

    def end_input(self):
        """What is left to be handed on: the end, behind a line that was begun. The terminal isn't closed, since the program may still have to see that it has one."""
        if self.has_ended:
            return b""
        self.has_ended, self.is_fed = True, False
        return b"\n" + END


class Launch:
    """What was typed and isn't handed on yet, and which signals came."""

    def __init__(self, kind, words):
        # What comes before it listens waits, so that it is never told of nothing.
        signal.pthread_sigmask(signal.SIG_BLOCK, {*SIGNALS, signal.SIGCHLD})
        self.member = kind(words)
        self.told, wakes = os.pipe()
        for end in (self.told, wakes):
            os.set_blocking(end, False)
        signal.set_wakeup_fd(wakes)
        for number in (*SIGNALS, signal.SIGCHLD):
            # As under nohup: who started this wants it to go on.
            if signal.getsignal(number) != signal.SIG_IGN:
                signal.signal(number, lambda *_: None)
        signal.pthread_sigmask(signal.SIG_UNBLOCK, {*SIGNALS, signal.SIGCHLD})
        self.waiting = b""
        self.signals = 0
        self.has_failed = False

    def run(self):
        """Hands on what is typed until the program has ended. The status."""
        while True:
            is_read, is_written = self.wait()
            for number in self.came():
                if number != signal.SIGCHLD and self.is_second():
                    self.member.kill()
                    return 128 + number
            status = self.member.status()
            if status is not None:
                return self.told_status(status)
            if is_written:
                self.waiting = self.member.write(self.waiting)
            elif is_read:
                self.read()

    def wait(self):
        """Waits until a signal came, something is typed, or the member takes what was."""
        poll = select.poll()
        poll.register(self.told, select.POLLIN)
        into = self.member.into
        if into is not None:
            poll.register(into, select.POLLOUT if self.waiting else 0)
        if self.member.is_fed and not self.waiting:
            poll.register(INPUT, select.POLLIN)
        ready = dict(poll.poll())
        if ready.get(into, 0) & select.POLLERR:
            # The program reads no more.
            self.member.end_input()
            return False, False
        return INPUT in ready, into in ready

    def came(self):
        """The signals that came."""
        try:
            return os.read(self.told, ROOM)
        except BlockingIOError:
            return b""

    def is_second(self):
        """Counts a signal. The first ends the input."""
        self.signals += 1
        if self.signals == 1:
            self.waiting = self.member.end_input()
            if os.isatty(2):
                os.write(2, b"\r\033[Ksrm: it stays for its time and leaves; a second signal ends it at once\n")
        return self.signals > 1

    def read(self):
        """Reads what is typed. At its end the program's input ends, and so it does where a live member's can't be read."""
        try:
            typed = os.read(INPUT, ROOM)
        except BlockingIOError:
            return
        except OSError:
            self.has_failed = self.member.needs_input
            if not self.has_failed:
                self.member.is_fed = False
                return
            typed = b""
        self.waiting = self.member.given(typed) if typed else self.member.end_input()

    def told_status(self, status):
        """The program's status, unless it knows nothing of an input that failed."""
        if status == 0 and self.has_failed:
            with contextlib.suppress(OSError):
                os.write(2, b"srm: input\n")
            return 1
        return status if status >= 0 else 128 - status


def run(kind):
    """Runs the member that the words name. The status."""
    if len(sys.argv) < 2:
        sys.exit(f"usage: {sys.argv[0]} PROGRAM [WORD..]")
    sys.exit(Launch(kind, sys.argv[1:]).run())
