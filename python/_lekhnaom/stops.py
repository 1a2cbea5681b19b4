"""What a refused call raises."""


class Stop(ValueError):
    """A call that was refused, by one of the papers' stops. Nothing that was lent to the call has changed.

    number  which stop it is, from 1 to 19 but never 12, or 255 (include/slash.h names them)
    place   an index from 0 of a vector or of records, a line from 1 of a recording or a listing, else 0
    text    the stop in words

    >>> from lekhnaom import Format
    >>> Format.fixed(40)
    Traceback (most recent call last):
    ...
    lekhnaom.Stop: stop 1 at 0: unknown format (twisting: floating ones only)
    """

    # The module that callers know.
    __module__ = "lekhnaom"

    def __init__(self, number, place, text):
        super().__init__(number, place, text)
        self.number = number
        self.place = place
        self.text = text

    def __str__(self):
        return f"stop {self.number} at {self.place}: {self.text}"
