"""Messages of the Language Server Protocol: what a client writes, and what a server wrote."""

import json
import re


def framed(body):
    return b"Content-Length: %d\r\n\r\n" % len(body) + body


def body_of(value):
    """A text of a value, in UTF-8 or escaped."""
    return json.dumps(value, ensure_ascii=False).encode("utf-8")


def notification(method, params):
    return {"jsonrpc": "2.0", "method": method, "params": params}


def request(number, method, params):
    return {**notification(method, params), "id": number}


def frames_in(output):
    """The values of the frames of an output."""
    found = []
    while output:
        header = re.match(rb"Content-Length: ([0-9]+)\r\n\r\n", output)
        if header is None:
            raise ValueError(f"no header: {output[:80]!r}")
        end = header.end() + int(header[1])
        if len(output) < end:
            raise ValueError("the last frame is cut off")
        found.append(json.loads(output[header.end() : end].decode("utf-8")))
        output = output[end:]
    return found
