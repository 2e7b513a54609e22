"""What is raised where a call is refused, with the sentence that the program columns has for it."""
from __future__ import annotations

from ._tables import MEANINGS, NO_ROW, SENTENCES


class Refused(ValueError):
    """A call was refused: nothing was written, and every buffer is as it was.

    `number` and `place` are those of the call, `sentence` says what the number means, and `name` is the file's, or None
    where there is none.
    """

    number: int
    place: int
    sentence: str
    name: str | None

    def __init__(self, number: int, place: int, sentence: str, name: str | None = None) -> None:
        super().__init__(number, place, sentence, name)
        self.number, self.place, self.sentence, self.name = number, place, sentence, name

    def __str__(self) -> str:
        front = "" if self.name is None else f"{self.name}: "
        return f"{front}refused {self.number} {self.place}: {self.sentence}"


class NoRow(Refused, IndexError):
    """There is no row with this number: number 12."""


class Changed(OSError):
    """A file was changed while it was read: what was read is of no use, and may be tried again."""


def meaning(number: int, of: str = "") -> str:
    """What the header says of a number, of blocks or of what is named."""
    found = MEANINGS.get(number, {})
    return found.get(of) or found.get("") or next(iter(found.values()), "the library gives a number that this package does not know")


def of_block(number: int, place: int) -> Refused:
    return Refused(number, place, meaning(number))


def of_file(number: int, place: int, name: str | None) -> Refused:
    """With the program's sentence, which has the place in it where it speaks of one."""
    if number not in SENTENCES:
        return Refused(number, place, meaning(number, "a file"), name)
    before, behind = SENTENCES[number]
    return Refused(number, place, before if behind is None else f"{before}{place}{behind}", name)


def of_renumbering(number: int, place: int, told: str, name: str | None) -> Refused:
    """With the number that it is about, where there is one: the program names the line of its input there."""
    return Refused(number, place, f"{meaning(number, 'a renumbering')}{told and f' ({told})'}", name)


def of_row(row: int, rows: int, name: str | None) -> NoRow:
    front, none, last = NO_ROW
    return NoRow(12, 0, f"{front}{row}{none if rows == 0 else f'{last}{rows - 1}'}", name)
