"""Texts that are handed to the library."""

from typing import Union

from ._errors import BadText

Text = Union[str, bytes, bytearray]


def text_bytes(text: Text) -> bytes:
    """The bytes of a text."""
    if isinstance(text, str):
        try:
            return text.encode()
        except UnicodeEncodeError as why:
            raise BadText(f"the text isn't UTF-8: {why}") from None
    if isinstance(text, (bytes, bytearray)):
        return bytes(text)
    raise TypeError(f"text is {text!r}: a scenario's text is wanted, as str or bytes (a file's: path.read_text())")
