"""The server: its files, what it answers, and how it begins and ends."""

from __future__ import annotations

import sys
import traceback
from itertools import count
from typing import Any, BinaryIO, Callable, Dict, Iterator, List, NamedTuple, Optional, TextIO

from .. import __version__
from . import messages, params
from .diagnostics import diagnostics
from .messages import Json, ProtocolError, error_of, parsed, read_body, write_message
from .semantic import TYPES, SentTokens, tokens_of_range
from .structure import Structure
from .texts import OpenText, Unit

_UNITS = {"utf-8": Unit.UTF8, "utf-16": Unit.UTF16, "utf-32": Unit.UTF32}
_WARNING = 2


class Numbers(NamedTuple):
    """Numbers for texts and for results, none of which comes twice, also where a file is opened again."""

    revisions: Iterator[int]
    results: Iterator[int]


class OpenFile:
    """A file that the client edits."""

    def __init__(self, uri: str, version: Optional[int], text: OpenText, numbers: Numbers) -> None:
        self.uri = uri
        self.version = version
        self.text = text
        self.sent = SentTokens(numbers.results)
        self.revision = next(numbers.revisions)
        self._numbers = numbers
        self._structure: Optional[Structure] = None

    def change(self, edits: List[params.Edit]) -> None:
        """Makes changes of the client."""
        self._structure, self.revision = None, next(self._numbers.revisions)
        for edit in edits:
            self.sent.take(self.text.change(edit))

    def structure(self) -> Structure:
        """The structure of the text, made once for each text."""
        if self._structure is None:
            self._structure = Structure(self.text)
        return self._structure

    def close(self) -> None:
        """Frees the text."""
        self.text.document.close()


class Client:
    """What the client has said of itself."""

    def __init__(self, initialized: Any) -> None:
        def can(*names: str) -> bool:
            return bool(params.child(initialized, "capabilities", "textDocument", *names))

        offered = params.child(initialized, "capabilities", "general", "positionEncodings")
        known = [name for name in offered if name in _UNITS] if isinstance(offered, list) else []
        self.encoding = known[0] if known else "utf-16"
        self.pulls = params.child(initialized, "capabilities", "textDocument", "diagnostic") is not None
        self.has_related = can("publishDiagnostics", "relatedInformation") or can("diagnostic", "relatedInformation")


def capabilities(client: Client) -> Dict[str, Any]:
    """What the server can."""
    legend = {"tokenTypes": TYPES, "tokenModifiers": []}
    return {
        "positionEncoding": client.encoding,
        "textDocumentSync": {"openClose": True, "change": 2},
        "diagnosticProvider": {"interFileDependencies": False, "workspaceDiagnostics": False},
        "semanticTokensProvider": {"legend": legend, "full": {"delta": True}, "range": True},
        "foldingRangeProvider": True,
        "selectionRangeProvider": True,
        "documentHighlightProvider": True,
    }


class Server:
    """A server for one client."""

    def __init__(self, reader: BinaryIO, writer: BinaryIO, log: TextIO = sys.stderr) -> None:
        self._reader, self._writer, self._log = reader, writer, log
        self._files: Dict[str, OpenFile] = {}
        self._numbers = Numbers(count(), count(1))
        self._client: Optional[Client] = None
        self._is_shut_down = False
        self._requests: Dict[str, Callable[[Any], Any]] = {
            "textDocument/diagnostic": self._pull,
            "textDocument/semanticTokens/full": lambda asked: (file := self._file(asked)).sent.all(file.text),
            "textDocument/semanticTokens/full/delta": self._delta,
            "textDocument/semanticTokens/range": self._range,
            "textDocument/foldingRange": lambda asked: self._file(asked).structure().folds(),
            "textDocument/selectionRange": self._selection,
            "textDocument/documentHighlight": self._highlight,
        }
        self._notices: Dict[str, Callable[[Any], None]] = {
            "textDocument/didOpen": self._open,
            "textDocument/didChange": self._change,
            "textDocument/didClose": self._close,
        }

    def serve(self) -> int:
        """Takes messages until the client is done, and returns the exit status."""
        try:
            while (body := read_body(self._reader)) is not None:
                if self.take(body):
                    break
        except BrokenPipeError:
            return 1
        return 0 if self._is_shut_down else 1

    def text_of(self, uri: str) -> OpenText:
        """The text of a file. KeyError where it isn't open."""
        return self._files[uri].text

    def take(self, body: bytes) -> bool:
        """Takes a message. Returns whether it was the last one."""
        try:
            message = parsed(body)
        except ProtocolError as error:
            write_message(self._writer, error_of(None, error))
            return False
        method = message.get("method")
        if "id" in message and isinstance(message["id"], (int, str)):
            # An answer has no method. The server asks for nothing.
            if isinstance(method, str) or not {"result", "error"} & message.keys():
                self._answer(message["id"], method, message.get("params"))
        elif method == "exit":
            return True
        elif isinstance(method, str):
            self._notice(method, message.get("params"))
        else:
            wrong = ProtocolError(messages.INVALID_REQUEST, "a request has a method and an id")
            write_message(self._writer, error_of(None, wrong))
        return False

    def _answer(self, number: messages.Id, method: Any, asked: Any) -> None:
        """Answers a request."""
        try:
            answer: Dict[str, Any] = {"id": number, "result": self._result(method, asked)}
        except ProtocolError as error:
            answer = error_of(number, error)
        except (Exception, MemoryError) as error:
            traceback.print_exc(file=self._log)
            answer = error_of(number, ProtocolError(messages.INTERNAL_ERROR, f"{type(error).__name__}: {error}"))
        write_message(self._writer, answer)

    def _result(self, method: Any, asked: Any) -> Any:
        """The result of a request."""
        if method == "initialize" and self._client is None:
            self._client = Client(asked)
            server = {"name": "starlark-lsp", "version": __version__}
            return {"capabilities": capabilities(self._client), "serverInfo": server}
        if self._client is None:
            raise ProtocolError(messages.SERVER_NOT_INITIALIZED, "the first request is `initialize`")
        if self._is_shut_down or not isinstance(method, str) or method == "initialize":
            raise ProtocolError(messages.INVALID_REQUEST, "this request isn't one for now")
        if method == "shutdown":
            self._is_shut_down = True
            return None
        if method not in self._requests:
            raise ProtocolError(messages.METHOD_NOT_FOUND, f"the server has no `{method}`")
        return self._requests[method](asked)

    def _notice(self, method: str, asked: Any) -> None:
        """Takes a notification. One that can't be right is logged, and changes nothing.

        Where the server has no memory for a text, the file is closed: it isn't that of the client.
        """
        take = self._notices.get(method)
        if take is None or self._client is None or self._is_shut_down:
            return
        try:
            take(asked)
        except (ProtocolError, ValueError, MemoryError) as error:
            if not isinstance(error, ProtocolError):
                self._files.pop(params.uri_of(asked), None)
            said = {"type": _WARNING, "message": f"{method}: {str(error) or 'out of memory'}"}
            write_message(self._writer, {"method": "window/logMessage", "params": said})

    def _file(self, asked: Any) -> OpenFile:
        """The open file that a message is about. ProtocolError where it isn't open."""
        uri = params.uri_of(asked)
        if uri not in self._files:
            raise ProtocolError(messages.INVALID_PARAMS, f"the file isn't open: {uri}")
        return self._files[uri]

    def _open(self, asked: Any) -> None:
        """Opens a file; one that is open gets the new text."""
        uri, source = params.uri_of(asked), params.string(asked, "textDocument", "text")
        assert self._client is not None
        text = OpenText(source, _UNITS[self._client.encoding])
        if uri in self._files:
            self._files[uri].close()
        self._files[uri] = OpenFile(uri, params.version_of(asked), text, self._numbers)
        self._publish(self._files[uri])

    def _change(self, asked: Any) -> None:
        """Changes a file."""
        file, edits = self._file(asked), params.edits(asked)
        file.change(edits)
        file.version = params.version_of(asked)
        self._publish(file)

    def _close(self, asked: Any) -> None:
        """Closes a file, and takes its diagnostics back."""
        file = self._file(asked)
        file.close()
        del self._files[file.uri]
        self._push(file.uri, None, [])

    def _found(self, file: OpenFile) -> List[Dict[str, Any]]:
        """The diagnostics of a file."""
        assert self._client is not None
        return diagnostics(file.text, file.uri, self._client.has_related)

    def _publish(self, file: OpenFile) -> None:
        """Pushes the diagnostics of a file to a client that doesn't pull them."""
        if self._client is not None and not self._client.pulls:
            self._push(file.uri, file.version, self._found(file))

    def _push(self, uri: str, version: Optional[int], found: List[Dict[str, Any]]) -> None:
        """Pushes diagnostics, unless the client pulls them."""
        if self._client is None or self._client.pulls:
            return
        sent: Dict[str, Any] = {"uri": uri, "diagnostics": found}
        if version is not None:
            sent["version"] = version
        write_message(self._writer, {"method": "textDocument/publishDiagnostics", "params": sent})

    def _pull(self, asked: Any) -> Dict[str, Any]:
        """The diagnostics of a file, or that they are those which the client has."""
        file = self._file(asked)
        result = str(file.revision)
        if params.child(asked, "previousResultId") == result:
            return {"kind": "unchanged", "resultId": result}
        return {"kind": "full", "resultId": result, "items": self._found(file)}

    def _delta(self, asked: Any) -> Json:
        """What differs from the tokens that the client has."""
        file = self._file(asked)
        return file.sent.changed(file.text, params.child(asked, "previousResultId"))

    def _range(self, asked: Any) -> Json:
        """The tokens of a range."""
        text = self._file(asked).text
        begin, end = params.span(params.child(asked, "range"))
        return tokens_of_range(text, text.offset(begin), text.offset(end))

    def _selection(self, asked: Any) -> List[Dict[str, Any]]:
        """The ranges around some positions."""
        structure = self._file(asked).structure()
        return [structure.selection(at) for at in params.positions(asked)]

    def _highlight(self, asked: Any) -> List[Dict[str, Any]]:
        """The bracket at a position, and its partner."""
        file = self._file(asked)
        offset = file.text.offset(params.position(params.child(asked, "position")))
        return file.structure().brackets(offset) if file.text.has_bracket(offset) else []
