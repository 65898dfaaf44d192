"""Messages of JSON-RPC as the protocol frames them: a header with a length, and then JSON."""

from __future__ import annotations

import json
from typing import Any, BinaryIO, Dict, Optional, Union

PARSE_ERROR = -32700
INVALID_REQUEST = -32600
METHOD_NOT_FOUND = -32601
INVALID_PARAMS = -32602
INTERNAL_ERROR = -32603
SERVER_NOT_INITIALIZED = -32002

# The longest header line that is read, and the longest body.
_MOST_HEADER = 4096
_MOST_BODY = 2**30


class ProtocolError(Exception):
    """A request gets an error instead of a result."""

    def __init__(self, code: int, message: str) -> None:
        super().__init__(message)
        self.code = code


class Json(bytes):
    """A result that is written in JSON already."""


def _length(header: bytes) -> Optional[int]:
    """The length that a header line gives; None for another line, and for one without a fit number."""
    name, _, value = header.partition(b":")
    value = value.strip()
    if name.strip().lower() != b"content-length" or not value.isdigit() or len(value) > 10:
        return None
    return int(value) if int(value) <= _MOST_BODY else None


def read_body(reader: BinaryIO) -> Optional[bytes]:
    """The body of the next message; None where the input ends, also within a message.

    A header without a length has no body that could be found: the next one is looked for.
    """
    length: Optional[int] = None
    while True:
        line = reader.readline(_MOST_HEADER)
        if not line:
            return None
        if line.strip():
            found = _length(line)
            length = length if found is None else found
        elif length is not None:
            body = reader.read(length)
            return body if len(body) == length else None


def parsed(body: bytes) -> Dict[str, Any]:
    """The message of a body. ProtocolError where it is no JSON, or no object."""
    try:
        message = json.loads(body)
    except (ValueError, RecursionError) as error:
        raise ProtocolError(PARSE_ERROR, f"this is no JSON: {error}") from error
    if not isinstance(message, dict):
        raise ProtocolError(INVALID_REQUEST, "a message is an object")
    return message


def write_message(writer: BinaryIO, message: Dict[str, Any]) -> None:
    """Writes a message, whose `result` may be written already."""
    result = message.get("result")
    if isinstance(result, Json):
        front = _dumped({key: value for key, value in message.items() if key != "result"})
        body = front[:-1] + b',"result":' + result + b"}"
    else:
        body = _dumped(message)
    writer.write(b"Content-Length: %d\r\n\r\n" % len(body))
    writer.write(body)
    writer.flush()


def _dumped(message: Dict[str, Any]) -> bytes:
    """A message in JSON, in ASCII."""
    return json.dumps({"jsonrpc": "2.0", **message}, separators=(",", ":")).encode()


Id = Union[int, str, None]


def error_of(number: Id, error: ProtocolError) -> Dict[str, Any]:
    """The answer to a request that gets an error."""
    return {"id": number, "error": {"code": error.code, "message": str(error)}}
