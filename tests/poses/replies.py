"""What the program `poses` says apart from its listing, as text: for the stored runs (make.py) and
for runs of the program itself (run.py)."""
import os

VERSION = "poses 0.3.3\n"
USAGE = "usage: poses < FILE > LISTING\n"
HELP = (
    USAGE
    + """\
Reads frame records of 195 bytes each and lists the poses of every record, or the
number of the question by which it is refused. docs/QUESTIONS.md has the formats and
the questions, docs/USING.md what a refusal asks of you.
A listing is whole only with its last line, `end ..` or `stop ..`. Where that is
missing, standard error says why, unless a signal ended the run.
"""
)


def cannot(what, number):
    """The line for a call that failed, with the text of its errno."""
    return f"poses: cannot {what}: {os.strerror(number)}\n"


def cannot_read(number):
    return cannot("read the input", number)


def cannot_write(number):
    return cannot("write the listing", number)


def cannot_reply(number):
    return cannot("write the reply", number)
