"""Files of texts."""
from .refusal import Refusal


def text_of(path: str) -> str:
    """The text of a file, with its own ends of lines."""
    try:
        with open(path, encoding="utf-8", newline="") as file:
            return file.read()
    except OSError as error:
        raise Refusal(f"{path} can't be read: {error.strerror}") from None
    except UnicodeDecodeError as error:
        raise Refusal(f"{path} is no UTF-8: byte {error.start}") from None


def write_text(path: str, text: str) -> None:
    try:
        with open(path, "w", encoding="utf-8", newline="") as file:
            file.write(text)
    except OSError as error:
        raise Refusal(f"{path} can't be written: {error.strerror}") from None
