"""Requests and replies of HTTP as bytes: made, and read back."""

import json
import re

LENGTH = re.compile(rb"(?im)^content-length:[ \t]*([0-9]+)[ \t]*\r?$")


def request(method, path, body=None, project="a", admin=False, fields=""):
    """The bytes of a request. A body is bytes, or a value that is written as JSON. Further fields are
    lines."""
    text = b"" if body is None else body if isinstance(body, bytes) else json.dumps(body).encode()
    head = f"{method} {path} HTTP/1.1\r\nX-Project-Id: {project}\r\n"
    if admin:
        head += "X-Roles: admin\r\n"
    if body is not None:
        head += f"Content-Length: {len(text)}\r\n"
    return (head + fields).encode() + b"\r\n" + text


def body_length(head):
    """How many bytes of body a head announces."""
    found = LENGTH.search(head)
    return int(found[1]) if found else 0


def messages_in(text):
    """The whole requests or replies that the bytes begin with, and the bytes after the last of
    them."""
    parts, at = [], 0
    while (end := text.find(b"\r\n\r\n", at)) >= 0:
        end += 4 + body_length(text[at:end])
        if end > len(text):
            break
        parts.append(text[at:end])
        at = end
    return parts, text[at:]


def read_reply(file):
    """The status, the head and the body of the next reply, or None where the file ends before or
    in its head."""
    head = b""
    while not head.endswith(b"\r\n\r\n"):
        line = file.readline()
        if not line:
            return None
        head += line
    return int(head.split()[1]), head, file.read(body_length(head))
