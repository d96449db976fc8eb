"""What a call says when it does not do its work."""

MEANING = {
    1: 'A size is out of the range that the library takes.',
    2: 'The qubit at list position {place} is not in the register.',
    3: 'The qubit at list position {place} is listed twice.',
    4: 'The list of qubits is empty.',
    5: 'The list names every qubit, so nothing is cut off.',
    6: 'Argument slice {place} has a wrong length.',
    7: 'Cell {place} is not a number, infinite or above 2^200 in magnitude.',
    8: 'The data have no weight: nothing is left above the floor, or the trace is zero.',
    9: 'The arithmetic gave a number that is not finite.',
    10: 'The file is not a cut file.',
    11: 'Cell {place} is not a whole number of 2^-18 of magnitude at most 1.',
    12: 'The qubit is not listed.',
    13: 'The site number is not held, or is held already.',
    14: 'No run of free cells is long enough.',
    15: 'Sixty-four sites are held.',
    16: "The lot's header is broken.",
}


class Refusal(ValueError):
    """A refusal by the library's table: number, place (a list position, a slice or a cell, from 0) and meaning.

    >>> import zegrafult as zg
    >>> try:
    ...     zg.validate_subsystem([0, 5], 3)
    ... except zg.Refusal as refusal:
    ...     refusal.number, refusal.place, refusal.meaning
    (2, 1, 'The qubit at list position 1 is not in the register.')
    """

    def __init__(self, number, place=0, meaning=None):
        if meaning is None:
            meaning = MEANING.get(number, 'The answer {number} is not in the table.').format(number=number, place=place)
        super().__init__(number, place, meaning)
        self.number, self.place, self.meaning = number, place, meaning

    def __str__(self):
        return 'refused %d %d: %s' % self.args
