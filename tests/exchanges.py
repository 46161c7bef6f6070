"""Exchanges of a client with `ti-lsp`: what is sent, and what must come back, byte for byte. A line of
a file of exchanges is one of

    # TEXT          a comment; an empty line is one too
    NAME = BODY     a name, in capitals, of a body that comes more than once; `$1` and so on are words
    exchange TEXT   a new server, and what the exchange shows
    -> BODY         the client sends this body, after its header
    => BYTES        the client sends these bytes
    <- BODY         the server sends this body, after its header
    end STATUS      the input ends; the server ends with this status, and has sent nothing else

What is sent line after line comes with one write, so frames wait after others. What is sent after a
line `<-` is written once the server has sent what is to come before it. A body is the text itself,
or a name with its words; all files share the names of `tests/cli/names`. In `BYTES` the escapes are
those of the rows of crates/test_rows: `\\r`, `\\n`, `\\s`, `\\\\`, up to three octal digits, and
`\\(40:ab\\)` for 40 times `ab`.
"""

import re
import subprocess
import threading

SHOWN = 400
ESCAPED = {"r": "\r", "n": "\n", "t": "\t", "s": " "}
ESCAPE = re.compile(r"\\\((\d+):(.*?)\\\)|\\([0-7]{1,3})|\\(.)", re.S)


def framed(body):
    return b"Content-Length: %d\r\n\r\n" % len(body) + body


def bytes_of_text(text):
    """The bytes of a text with escapes."""

    def one(found):
        count, piece, octal, letter = found.groups()
        if count:
            return ESCAPE.sub(one, piece) * int(count)
        if octal:
            return chr(int(octal, 8))
        return ESCAPED.get(letter, letter)

    return ESCAPE.sub(one, text).encode("latin-1")


class Exchange:
    """One exchange: its steps are pairs of what is sent and what comes back."""

    def __init__(self, shows):
        self.shows, self.steps, self.status = shows, [[b"", b""]], None

    def send(self, sent):
        if self.steps[-1][1]:
            self.steps.append([b"", b""])
        self.steps[-1][0] += sent

    def expect(self, wanted):
        self.steps[-1][1] += wanted

    def fault(self, command, directory, environment, seconds):
        """What is wrong with the exchange with a server, or None."""
        with subprocess.Popen(
            command, cwd=directory, env=environment, stdin=subprocess.PIPE, stdout=subprocess.PIPE,
            stderr=subprocess.PIPE, bufsize=0,
        ) as server:
            watch = threading.Timer(seconds, server.kill)
            watch.start()
            try:
                return self.talk(server)
            finally:
                watch.cancel()
                server.kill()

    def talk(self, server):
        for number, (sent, wanted) in enumerate(self.steps):
            written = write_all(server, sent)
            got = read_some(server, len(wanted))
            if got != wanted or not written:
                return f"step {number}: {difference(got, wanted)}"
        server.stdin.close()
        rest, errors = server.stdout.read(), server.stderr.read()
        if rest or errors:
            return f"further output {rest[:SHOWN]!r}, standard error {errors[:SHOWN]!r}"
        status = server.wait()
        return None if status == self.status else f"status is {status}, wanted {self.status}"


def write_all(server, sent):
    """Sends bytes. Gives whether the server took them."""
    try:
        while sent:
            sent = sent[server.stdin.write(sent) :]
    except BrokenPipeError:
        return False
    return True


def read_some(server, count):
    """So many bytes that the server sends; fewer if it ends before."""
    got = b""
    while len(got) < count:
        piece = server.stdout.read(count - len(got))
        if not piece:
            break
        got += piece
    return got


def difference(got, wanted):
    """Where two outputs part."""
    at = next((at for at, (one, other) in enumerate(zip(got, wanted)) if one != other), min(len(got), len(wanted)))
    at = max(0, at - 40)
    return f"from byte {at} on came {got[at : at + SHOWN]!r}, wanted {wanted[at : at + SHOWN]!r}"


def body_of(names, text):
    """The body that a text is, or names."""
    name, *words = text.split(" ")
    if re.fullmatch("[A-Z_]+", name):
        text = re.sub(r"\$([1-9])", lambda found: words[int(found[1]) - 1], names[name])
    return framed(text.encode())


def exchanges_of(text):
    """The exchanges of a file."""
    names, found = {}, []
    for line in text.split("\n"):
        if not line or line.startswith("#"):
            continue
        mark, _, rest = line.partition(" ")
        if mark == "exchange":
            found.append(Exchange(rest))
        elif mark == "->":
            found[-1].send(body_of(names, rest))
        elif mark == "=>":
            found[-1].send(bytes_of_text(rest))
        elif mark == "<-":
            found[-1].expect(body_of(names, rest))
        elif mark == "end":
            found[-1].status = int(rest)
        elif rest.startswith("= ") and mark not in names:
            names[mark] = rest[2:]
        else:
            raise ValueError(f"no line of an exchange: {line[:60]}")
    return found


def exchange_faults(text, command, directory, environment, seconds):
    """What is wrong with the exchanges of a file, each with a server of its own."""
    exchanges = exchanges_of(text)
    if not exchanges:
        return ["there is no exchange"]
    found = []
    for exchange in exchanges:
        fault = exchange.fault(command, directory, environment, seconds)
        if fault:
            found.append(f"{exchange.shows}: {fault}")
    return found
