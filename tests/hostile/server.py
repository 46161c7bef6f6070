"""Malicious inputs for the language server: frames that are none, bodies of any announced length, a
closed output.
"""

import os
import resource
import subprocess

from documents import INITIALIZE, run_fault
from limits import LSP, SECONDS_MAX
from lsp import body_of, framed, notification
from registry import case

NO_JSON = b'{"error":{"code":-32700,"message":"the body is not JSON, or is too long"},"id":null,"jsonrpc":"2.0"}'
# of a server that has been sent little
SMALL_MEMORY = 60_000_000


def ends(take, given, out=b"", small=True):
    """What is wrong with a run of the server that ends with status 1 and this output."""
    fault = take.fault([], given, 1, out, program=LSP)
    if fault is None and small and take.memory > SMALL_MEMORY:
        return f"{take.memory} bytes were held"
    return fault


@case("server: no input")
def no_input(take):
    return ends(take, b"")


@case("server: a header without end")
def endless_header(take):
    return ends(take, b"X" * 1_000_000) or ends(take, b"X: y\r\n" * 200_000) or ends(take, b"\n" * 100_000)


@case("server: headers that are none")
def bad_headers(take):
    heads = [
        b"\r\n", b"Content-Length\r\n\r\n", b"Content-Length: 2\n\n{}", b"Content-Length: 1e2\r\n\r\n",
        b"Content-Length: +2\r\n\r\n{}", b"Content-Length: 0x2\r\n\r\n{}", b"Content-Length: 2, 2\r\n\r\n{}",
        b"\xff\xfe\r\n\r\n", b"\0\0\0\0\r\n\r\n", b"GET / HTTP/1.1\r\n\r\n",
    ]
    return next((fault for head in heads if (fault := ends(take, head))), None)


@case("server: bodies shorter than announced, of any length")
def short_bodies(take):
    for length in (1, 4_097, 2**20, 67_108_864, 67_108_865, 2**31, 2**32 + 1, 10**15, 2**63, 2**64, 10**40):
        fault = ends(take, b"Content-Length: %d\r\n\r\n" % length)
        if fault is None and length > 5_000:
            fault = ends(take, b"Content-Length: %d\r\n\r\n" % length + b"{" * 5_000)
        if fault is not None:
            return f"{length}: {fault}"
    return None


@case("server: a body over the limit, and a frame after it")
def long_body(take):
    return ends(take, framed(b" " * 67_108_865) + framed(b"{"), framed(NO_JSON) * 2)


@case("server: bodies of the limit", long=True)
def full_bodies(take):
    text = b'"' + b"a" * (67_108_864 - 2) + b'"'
    refused = NO_JSON.replace(b"-32700", b"-32600")
    refused = refused.replace(b"the body is not JSON, or is too long", b"invalid request")
    return ends(take, framed(text) + framed(b"[" * 67_108_864), framed(refused) + framed(NO_JSON), small=False)


@case("server: bytes that are no frames")
def noise(take):
    noise_bytes = bytes((number * 7 + number // 251) % 256 for number in range(100_000))
    return ends(take, noise_bytes) or ends(take, b"\0" * 100_000) or ends(take, b"\r\n" * 50_000)


@case("server: a document of 20,000 lines, and an edit at each end")
def long_document(_):
    text = "a|b,\n\tam,\n" * 100 + "# \U0001d11e\n" * 20_000 + "c,use=zz,\n"
    last, first = {"line": 20_200, "character": 0}, {"line": 0, "character": 0}
    change = [
        {"range": {"start": last, "end": {"line": 2**31 - 1, "character": 0}}, "text": "d,foo,"},
        {"range": {"start": first, "end": {"line": 0, "character": 2**31 - 1}}, "text": "\U0001d11e,"},
    ]
    document = {"uri": "u", "version": 1}
    return run_fault([body_of(value) for value in (
        INITIALIZE, notification("textDocument/didOpen", {"textDocument": {**document, "text": text}}),
        notification("textDocument/didChange", {"textDocument": document, "contentChanges": change}))])


@case("server: 15,000 faults on one line, and 5,000 names that an earlier entry has")
def many_faults(_):
    names = "|".join(f"n{number}" for number in range(5_000)) + "|d"
    text = f"{names},am,\n{names}," + "cols#x,zz,use=q," * 5_000 + "\n"
    document = {"uri": "u", "version": 1, "text": text}
    return run_fault([body_of(INITIALIZE), body_of(notification("textDocument/didOpen", {"textDocument": document}))])


@case("server: a source over a limit, and back under it")
def over_limits(_):
    def opened(text):
        return notification("textDocument/didOpen", {"textDocument": {"uri": "u", "version": 1, "text": text}})

    def changed(text):
        document = {"uri": "u", "version": 2}
        return notification("textDocument/didChange", {"textDocument": document, "contentChanges": [{"text": text}]})

    most = "x," + " " * (1_048_576 - 3)
    blocks = "a,\n" * 65_535
    texts = ["\n" + most + "\n", "\n" + most + " \n", "#\nb,foo,\n" + most + " ", most, blocks, blocks + "b,\nc,\n", "b,foo,"]
    return run_fault([body_of(INITIALIZE), body_of(opened(texts[0]))] + [body_of(changed(text)) for text in texts[1:]])


def unwritable(bodies, output):
    """What is wrong with a run of the server whose output takes nothing: it ends with status 1, and
    says nothing."""
    done = subprocess.run(
        [LSP], input=b"".join(map(framed, bodies)), stdout=output, stderr=subprocess.PIPE, env={},
        timeout=SECONDS_MAX, check=False,
    )
    wanted = (done.returncode, done.stderr) == (1, b"")
    return None if wanted else f"status {done.returncode}, errors {done.stderr[:200]!r}"


def with_data(given, most):
    """A run of the server that may have so many bytes of memory apart from its code."""
    return subprocess.run(
        [LSP], input=given, stdout=subprocess.PIPE, stderr=subprocess.PIPE, env={}, timeout=SECONDS_MAX, check=False,
        preexec_fn=lambda: resource.setrlimit(resource.RLIMIT_DATA, (most, most)),
    )


@case("server: memory refused, sooner and later")
def little_memory(_):
    document = {"uri": "u", "version": 1}
    place = {"start": {"line": 7, "character": 0}, "end": {"line": 9, "character": 3}}
    change = {"range": place, "text": "c,use=zz,"}
    given = b"".join(map(framed, map(body_of, (
        INITIALIZE,
        notification("textDocument/didOpen", {"textDocument": {**document, "text": "a|b,\n\tam, cols#8o, foo,\n" * 300}}),
        notification("textDocument/didChange", {"textDocument": document, "contentChanges": [change]}),
        {"id": 1, "method": "shutdown"},
        {"method": "exit"},
    ))))
    whole, fronts = with_data(given, 2**30), set()
    for most in (*range(150_000, 300_000, 10_000), *range(300_000, 8_000_000, 100_000)):
        done = with_data(given, most)
        if not fronts and done.returncode not in (0, 1):
            # the loader has too little to start the program
            continue
        fronts.add(len(done.stdout))
        ended = (0, whole.stdout) if done.returncode == 0 else (1, whole.stdout[: len(done.stdout)])
        if (done.returncode, done.stdout, done.stderr) != (*ended, b""):
            return f"with {most} bytes: status {done.returncode}, {done.stdout[-80:]!r}, errors {done.stderr[:80]!r}"
    return None if whole.returncode == 0 and len(fronts) > 2 else f"the lengths of what was written are {sorted(fronts)}"


@case("server: a closed output")
def closed_output(_):
    bodies = [body_of(INITIALIZE)] + [body_of({"id": 1, "method": "x"})] * 10_000
    reading, writing = os.pipe()
    os.close(reading)
    fault = unwritable(bodies, writing)
    os.close(writing)
    return fault


@case("server: an output that is full")
def full_output(_):
    with open("/dev/full", "wb") as full:
        return unwritable([body_of(INITIALIZE)], full)
