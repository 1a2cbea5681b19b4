"""Reads words back: python3 examples/python/read_word.py, with PYTHONPATH=python."""

from lekhnaom import Format, Word, breath

# What a recorder stored, 32 bits of it.
word = Word(Format.fixed(15), 0x01150282)
print(word.fraction, "approximate" if word.is_approximate else "exact", word.quotients)

# The same ratio in nine bits a part: the best that they hold, and marked.
print(word.convert(Format.fixed(9)))

# What the recorder stores of a breath: onset, peak and next onset, at 1024 ticks a second.
print(breath(1024, 0, 277, 642) == word)
