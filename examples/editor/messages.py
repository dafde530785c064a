"""What a person's message asks for: each field is tested here, and what is wrong has a name. PROTOCOL.md describes them."""

from __future__ import annotations

import json
import re
from typing import Any, NamedTuple, Optional

import voxdag

MOST_BYTES = 16 * 1024
MOST_DEEP = 8
WHOLE = 1 << 53
KEY = re.compile(r"[A-Za-z0-9_-]{1,64}")
# What can be seen of a name: no control characters, and none that turn the direction of what follows.
UNSEEN = re.compile(r"[\x00-\x1f\x7f-\x9f\u200b-\u200f\u2028-\u202e\u2060-\u206f\ufeff\ud800-\udfff]")


class Refusal(Exception):
    """Why something isn't done: a name, and words."""

    def __init__(self, name: str, words: str) -> None:
        super().__init__(f"{name}: {words}")
        self.name, self.words = name, words


def of_library(refused: voxdag.Refused) -> Refusal:
    """The library's refusal under its own name, as `no_version` of NoVersion."""
    return Refusal(re.sub(r"(?<!^)(?=[A-Z])", "_", type(refused).__name__).lower(), str(refused))


class Edit(NamedTuple):
    """An edit as a journal has it, its key, and the version that it has to follow, if it is tried once."""

    name: str
    numbers: tuple[int, ...]
    key: Optional[str]
    once: Optional[int]

    @property
    def text(self) -> str:
        return spelled(self.name, self.numbers)


def spelled(name: str, numbers: tuple[int, ...]) -> str:
    words = [*map(str, numbers)]
    return " ".join([name, *words[:6], "to", *words[6:]] if name == "copy" else [name, *words])


def text_of(message: dict[str, Any]) -> str:
    """A message as it is sent."""
    return json.dumps(message, separators=(",", ":"))


def read(text: str) -> dict[str, Any]:
    """The object of a message."""
    if len(text) > MOST_BYTES:
        raise Refusal("too_long", f"a message has at most {MOST_BYTES} characters")
    if text.count("[") + text.count("{") > 64:
        raise Refusal("bad_json", "it is too deep")
    try:
        message = json.loads(text, parse_constant=_no_constant)
    except (ValueError, RecursionError):
        raise Refusal("bad_json", "it is no JSON") from None
    if not isinstance(message, dict) or not isinstance(message.get("do"), str):
        raise Refusal("bad_message", "it is no object with the name of what to do")
    return message


def _no_constant(word: str) -> None:
    raise ValueError(word)


def identity(message: dict[str, Any]) -> Optional[int]:
    """The number by which the person knows the answer."""
    number = message.get("id")
    return number if type(number) is int and 0 <= number < WHOLE else None


def _numbers(message: dict[str, Any], field: str, count: int, least: int = 0, most: int = 4096) -> tuple[int, ...]:
    given = message.get(field)
    if not isinstance(given, list) or len(given) != count or not all(type(n) is int for n in given):
        raise Refusal("bad_message", f"{field} has {count} whole numbers")
    if not all(least <= n <= most for n in given):
        raise Refusal("outside", f"{field}: each number is from {least} to {most}")
    return tuple(given)


def _number(message: dict[str, Any], field: str, least: int, most: int, default: Optional[int] = None, name: str = "bad_message") -> int:
    given = message.get(field, default)
    if type(given) is not int:
        raise Refusal("bad_message", f"{field} is a whole number")
    if not least <= given <= most:
        raise Refusal(name, f"{field} is from {least} to {most}")
    return given


def _box(box: tuple[int, ...], side: int) -> tuple[int, ...]:
    if any(box[i + 3] < 1 or box[i] + box[i + 3] > side for i in range(3)):
        raise Refusal("outside", "the box leaves the world, or a size is 0")
    return box


def edit_of(message: dict[str, Any], side: int, tints: bool, models: list[voxdag.Place]) -> Edit:
    """The edit that a message asks for. It lies in the world and has its model."""
    name, numbers = message["do"], ()
    if name in ("fill", "erase"):
        numbers = _box(_numbers(message, "box", 6), side)
    elif name in ("ball", "carve"):
        numbers = (*_numbers(message, "at", 3), _number(message, "radius", 0, 4095, name="outside"))
        _box((*numbers[:3], 1, 1, 1), side)
    elif name == "copy":
        box = _box(_numbers(message, "box", 6), side)
        to = _numbers(message, "to", 3)
        _box((*to, *box[3:]), side)
        numbers = (*box, *to)
    elif name == "stamp":
        model = _number(message, "model", 0, WHOLE, name="no_model")
        if model >= len(models):
            raise Refusal("no_model", "there is no model of this number")
        at = _numbers(message, "at", 3)
        _box((*at, *models[model]), side)
        numbers = (model, *at)
    if name in ("fill", "ball"):
        numbers = _tinted(message, numbers, tints)
    once = message.get("try")
    if once is not None:
        once = _number(message, "try", 0, 65535)
    return Edit(name, numbers, _key(message), once)


def _tinted(message: dict[str, Any], numbers: tuple[int, ...], tints: bool) -> tuple[int, ...]:
    if tints:
        return (*numbers, _number(message, "tint", 1, 255, default=1, name="bad_tint"))
    if "tint" in message:
        raise Refusal("other_kind", "the cells of this world have no tints")
    return numbers


def _key(message: dict[str, Any]) -> Optional[str]:
    key = message.get("key")
    if key is not None and not (isinstance(key, str) and KEY.fullmatch(key)):
        raise Refusal("bad_message", "a key has 1 to 64 letters, digits, _ and -")
    return key


EDITS = ("fill", "erase", "ball", "carve", "copy", "stamp", "undo", "redo")


class Question(NamedTuple):
    """A question of a version, which is a script's line behind `at v`."""

    name: str
    numbers: tuple[int, ...]
    version: int

    @property
    def line(self) -> str:
        words = [self.name, *map(str, self.numbers)]
        return " ".join(words if self.name in ("same", "changes") else ["at", str(self.version), *words])


def question_of(message: dict[str, Any], newest: int) -> Question:
    """The question that a message asks, of the newest version where it names none."""
    name = message.get("what")
    version = _number(message, "version", 0, WHOLE, default=newest, name="no_version")
    if name in ("get", "colour"):
        numbers = _numbers(message, "at", 3)
    elif name in ("count", "faces"):
        numbers = _numbers(message, "box", 6)
    elif name == "bounds":
        numbers = ()
    elif name == "ray":
        numbers = (*_numbers(message, "at", 3), *_numbers(message, "steps", 3, -1024, 1024))
    elif name in ("same", "changes"):
        numbers = (version, _number(message, "other", 0, WHOLE, name="no_version"))
    elif name == "record":
        numbers = ()
    else:
        raise Refusal("bad_message", "what is asked is get, colour, count, faces, bounds, ray, same, changes or record")
    if version > newest:
        raise Refusal("no_version", "there is no such version yet")
    return Question(name, numbers, version)


def shown_of(message: dict[str, Any], newest: int) -> tuple[int, int]:
    """From which version a page goes on to which."""
    first = _number(message, "from", 0, WHOLE, default=0, name="no_version")
    version = _number(message, "version", 0, WHOLE, default=newest, name="no_version")
    if first > newest or version > newest:
        raise Refusal("no_version", "there is no such version yet")
    return first, version


def pointed_of(message: dict[str, Any], side: int, newest: int) -> tuple[Optional[list[int]], Optional[int]]:
    """Where a person points, and at which old version the page looks."""
    at = None
    if message.get("at") is not None:
        at = [*_numbers(message, "at", 3, 0, side - 1)]
    version = message.get("version")
    return at, None if version is None else _number(message, "version", 0, newest, name="no_version")


def name_of(given: Any) -> str:
    """A name that can be shown: at most 24 characters."""
    if not isinstance(given, str) or len(given) > 256:
        raise Refusal("bad_message", "a name is a text of at most 24 characters")
    return UNSEEN.sub("", given).strip()[:24]
