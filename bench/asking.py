"""Sessions that are told by function calls instead of the lines of a row. Their documents are single lines."""

from client import Script, entry, item, published
from read import Row, Words


class Session(Script):
    """A session from its beginning to its end, in which `tells` opens documents and asks."""

    def __init__(self, title, tells, dialect="1"):
        self.tells = tells
        super().__init__(Row("", 0, title, steps=[Words(0, "told", "")]), dialect, "utf-16")

    def do_told(self, line, rest):
        self.tells(self)

    def open(self, uri, text, faults=()):
        document = {"uri": uri, "languageId": "fullsub", "version": 1, "text": text}
        self.notice(0, "didOpen", {"textDocument": document}, published(uri, 1, faults))

    def becomes(self, uri, version, place, text, faults=()):
        """Puts the text in this place, and says which faults there are then."""
        params = {"textDocument": {"uri": uri, "version": version}, "contentChanges": [{"range": place, "text": text}]}
        self.notice(0, "didChange", params, published(uri, version, faults))

    def query(self, method, uri, at, result, error=None, **more):
        """Asks about the character in this column."""
        self.ask(0, method, (0, at), uri, result, error, **more)

    def hover(self, uri, at, place=None, ty=None):
        """Asks for a type, of the term in this place; without one there is none."""
        shown = place and {"contents": {"kind": "plaintext", "value": ty}, "range": place}
        self.query("textDocument/hover", uri, at, shown)

    def derive(self, uri, at, context=(), steps=()):
        """Asks for a proof, in this context; without steps there is none."""
        proof = {"context": [entry(it) for it in context], "steps": list(steps)} if steps else None
        self.query("fullsub/derivation", uri, at, proof)

    def complete(self, uri, at, items, kind):
        self.query("textDocument/completion", uri, at, [item(it, kind) for it in items])
