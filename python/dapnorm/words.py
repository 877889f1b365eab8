"""Replaces texts of one machine, such as the path of a folder, in the strings of a recording."""
from __future__ import annotations

import json
import re
from typing import Dict, List, Mapping, Optional

TOKEN = re.compile(r'"(?:[^"\\]|\\.)*"|[{}\[\]:,]')
LENGTH = re.compile(rb"content-length:[\t ]*(\d{1,10})", re.IGNORECASE)
# The members of a message that name its kind. Their strings are never changed.
FIXED = ("type", "command", "event")


class Words:
    """Each TEXT becomes its WORD in all strings of all messages: the longest TEXT first, and never inside a WORD that was put there.

    Names of members, and the `type`, `command` and `event` of a message, are unchanged.
    """

    def __init__(self, words: Mapping[str, str]) -> None:
        if "" in words:
            raise ValueError("words: an empty text cannot be replaced")
        self.words: Dict[str, str] = dict(words)
        texts = sorted(self.words, key=len, reverse=True)
        self._texts = re.compile("|".join(map(re.escape, texts))) if texts else None

    def in_text(self, text: str) -> str:
        return self._texts.sub(lambda found: self.words[found[0]], text) if self._texts else text

    def in_content(self, content: str) -> str:
        """Returns the JSON text of a message with the words. The rest is unchanged, byte by byte."""
        parts, done, depth, name = [], 0, 0, None  # type: List[str], int, int, Optional[str]
        tokens = list(TOKEN.finditer(content))
        for at, token in enumerate(tokens):
            text = token[0]
            if text in "{[":
                depth += 1
            elif text in "}]":
                depth -= 1
            elif text[0] == '"':
                if at + 1 < len(tokens) and tokens[at + 1][0] == ":":
                    name = json.loads(text, strict=False) if depth == 1 else name
                    continue
                value = json.loads(text, strict=False)
                changed = self.in_text(value)
                if changed != value and not (depth == 1 and name in FIXED):
                    parts += [content[done:token.start()], json.dumps(changed)]
                    done = token.end()
        return "".join([*parts, content[done:]])

    def in_recording(self, recording: bytes) -> bytes:
        """Returns a recording with the words. Bytes that are not a record are unchanged: the program rejects them."""
        if not self.words:
            return recording
        records, at = [], 0
        while (header := recording.find(b"\r\n\r\n", at)) >= 0:
            found = LENGTH.search(recording, at, header)
            if found is None:
                break
            end = header + 4 + int(found[1])
            if recording[end:end + 1] != b"\n":
                break
            before = recording[header + 4:end]
            try:
                content = self.in_content(before.decode()).encode()
            except ValueError:
                content = before
            record = b"%sContent-Length: %d\r\n\r\n%s\n" % (recording[at:at + 1], len(content), content)
            records.append(recording[at:end + 1] if content == before else record)
            at = end + 1
        return b"".join([*records, recording[at:]])
