"""What samples/record.py is made of: numbers as text, frame records, listings, poses."""


class Fault(Exception):
    """What is wrong with what was given, in words for its user."""
