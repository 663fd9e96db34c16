"""Lists of library calls: as numbers for the program passes_main, by words.py,
and what the model answers them, as that program prints it."""

import reference
import words

UNTOUCHED = 43981  # what passes_main puts into queue and attached list first
PLACES = {"queue": 4100, "list": 1025}  # how long they are


class List:
    """Corners (x, y, pitch), labels (corner, cell) and calls (reference.Call).
    With boxes each call says which box it is handed, and the answered ones are
    printed."""

    def __init__(self, corners, labels, calls, boxes=False):
        self.corners = corners
        self.labels = labels
        self.calls = calls
        self.boxes = boxes

    def words(self):
        """The calls' whole answers, visited cells and sums are printed."""
        calls = [call_words(call, self.boxes) for call in self.calls]
        told = words.SUMS + (words.BOXES if self.boxes else 0)
        return words.list_words(self.corners, self.labels, calls, told, [call.shades for call in self.calls])

    def frame(self, model=reference):
        """The corners as the model holds them."""
        frame = model.Frame()
        frame.x, frame.y, frame.pitch = (list(part) for part in zip(*self.corners)) if self.corners else ([], [], [])
        frame.numbered = list(zip(range(len(frame.x)), frame.x, frame.y))
        return frame

    def sheet(self, model=reference):
        """The labels, and the box that a search of them finds."""
        sheet = model.Sheet()
        sheet.corner = {cell: corner for corner, cell in self.labels}
        sheet.around = sheet.search()
        return sheet

    def answers(self, model=reference):
        """For each call, the lines printed."""
        frame, sheet = self.frame(model), self.sheet(model)
        buffers = {name: [UNTOUCHED] * places for name, places in PLACES.items()}
        blocks = []
        for number, one in enumerate(self.calls, 1):
            call = model.Call(one.kind, one.settings, one.numbers, one.lent, one.shades, one.around)
            answer = model.library_call(frame, sheet, call)
            if not isinstance(answer, model.Answer):
                answer = model.Answer(f"(refused {answer})", [])
            written(buffers["queue"], answer.visited or [])
            written(buffers["list"], [cell for cell, _ in answer.attached])
            if not self.boxes:
                answer.box = None
            text = model.answer_text(f"pass {number} {call.kind}", answer, sheet)
            blocks.append(text.splitlines() + [f"{name} {total(values)}" for name, values in buffers.items()])
        return blocks


def call_words(call, boxes):
    """A call's 18 numbers, and the six of its box."""
    out = words.call_words(call.kind, call.settings, call.numbers, call.lent)
    return out + words.box_words(None if call.around == reference.AS_LEFT else call.around) if boxes else out


def written(buffer, cells):
    """01: the queue buffer holds the visited cells in order, the attached list
    the new ones, and the rest is untouched."""
    buffer[: len(cells)] = [words.place(cell) for cell in cells]


def total(values):
    """The sum over a buffer that passes_main prints."""
    s = 0
    for i, v in enumerate(values):
        s = (s * 31 + i % 65536 + v) % 2**32
    return "%08x" % s
