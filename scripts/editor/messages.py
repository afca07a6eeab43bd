"""Messages of JSON-RPC 2.0 with a header each, as the language server protocol has them."""

import json

PARSE_ERROR, INVALID_REQUEST, METHOD_NOT_FOUND, INVALID_PARAMS = -32700, -32600, -32601, -32602
NOT_INITIALIZED, REQUEST_FAILED = -32002, -32803
MOST_BYTES = 1 << 28


class Fault(Exception):
    """What is answered in place of a result."""

    def __init__(self, code, said):
        super().__init__(said)
        self.code = code


def received(stream):
    """The next message as an object, None where there is no more. What is no message is a Fault, and the stream goes on behind it."""
    line, length = stream.readline(), None
    if not line:
        return None
    while line.strip():
        name, _, value = line.partition(b":")
        if name.strip().lower() == b"content-length" and value.strip().isdigit() and len(value) < 20:
            length = int(value)
        line = stream.readline()
    if length is None or length > MOST_BYTES:
        raise Fault(PARSE_ERROR, "a message without a length that can be")
    body = stream.read(length)
    if len(body) < length:
        return None
    try:
        found = json.loads(body)
    except (ValueError, RecursionError) as fault:
        raise Fault(PARSE_ERROR, f"no JSON: {fault}") from fault
    if not isinstance(found, dict):
        raise Fault(INVALID_REQUEST, "a message is an object")
    return found


def send(stream, message):
    # Half a surrogate pair in what an editor sends comes back as one.
    text = json.dumps({"jsonrpc": "2.0", **message}).encode()
    stream.write(b"Content-Length: %d\r\n\r\n%s" % (len(text), text))
    stream.flush()


def field(words, *path, kind):
    """What stands at a path of names in the parameters of a message."""
    found = words
    for name in path:
        found = found.get(name) if isinstance(found, dict) else None
    if not isinstance(found, kind) or kind is int and (isinstance(found, bool) or found < 0):
        raise Fault(INVALID_PARAMS, f"{'.'.join(path)} is missing, or of another kind")
    return found
