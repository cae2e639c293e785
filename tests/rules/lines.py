"""The line program over the model's hub: which call a line is, and what each line prints. Why a line is unread is tests/hints.py's."""
import os
import sys

TESTS = os.path.dirname(os.path.dirname(os.path.abspath(__file__)))
sys.path[:0] = [TESTS, os.path.join(TESTS, "hub")]

from hints import TEXTS, lines_of, shape  # noqa: E402, F401
from make_vectors import answer_text, device_lines, examples  # noqa: E402, F401
from model import Refused  # noqa: E402
from ordered import OrderedHub  # noqa: E402


def call_of(line):
    """The letter and the numbers of a line, which is bytes without byte 10; None if its shape or a width is wrong."""
    if shape(line) is not None:
        return None
    letter, *words = line.decode().split(" ")
    return letter, [int(word) for word in words]


def why_unread(line, is_open):
    """The reason as people are told it; None if the line is read."""
    reason = shape(line)
    if reason is None and not is_open and not line.startswith(b"O"):
        reason = "NoHub"
    return TEXTS.get(reason)


def hub_call(letter, numbers):
    if letter == "S":
        return ("submit", [tuple(numbers[i:i + 3]) for i in range(0, len(numbers), 3)])
    if letter in "DB":
        return ("report", numbers[0], "DB".index(letter))
    return ({"N": "turn", "C": "cancel", "F": "failure", "R": "restart"}[letter], *numbers)


class Program:
    def __init__(self):
        self.hub = None

    def line(self, line):
        """What the line prints, a list."""
        call = call_of(line)
        if call is None or (self.hub is None and call[0] != "O"):
            return ["unread"]
        if call[0] != "O":
            return [answer_text(answer) for answer in self.hub.call(hub_call(*call))]
        try:
            self.hub = OrderedHub(*call[1])
        except Refused as refusal:
            return [answer_text(refusal.answer)]
        return ["opened"]

    def end(self):
        return [] if self.hub is None else device_lines(self.hub.lines())
