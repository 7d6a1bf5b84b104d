"""The answer numbers by name, as in host/wellacorn.h.  What Python means by an answer stands here alone; tests/answer_numbers.py holds it
to the header and to the crate `numbers`.

With each its place: a line of 01's table "Answer numbers", or 02.
"""

WAITING = 0             # line 0: the piece has ended and no message with it; of a collection: Monitor is not due
SERVED = 1              # line 1: done, with a reply or without
KEEP_ALIVE = 2          # line 2: the byte that only says that the sender is there
NO_CONNECTION = 3       # line 3: no connection has this number, or it is shut; to an opening only the former
SHORT_BUFFER = 4        # line 4: fewer than 4,096 bytes are lent for the reply; 02, M-100, 5: fewer than 31 records for the pulses
STRAY = 5               # line 5: a byte with which no message begins
TOO_LONG = 6            # line 6: a content of more than 1,024 bytes
BAD_CHECKSUM = 7        # line 7: neither the content's checksum nor 0xFFFF
NOT_OFFERED = 8         # line 8: no content, or a type that the box does not serve
LOW_RANK = 9            # line 9: the type needs a higher rank
# line 10 is given no more: 02, M-105, 1 has 20, 21 and 22 instead
OUT_OF_RANGE = 11       # line 11: a number in a message or a level event that stands for nothing; 02, M-100, 7: a pulse of 0 ms; 02, M-102, 12:
                        # a place that there is not, or a channel whose module is absent
ALREADY_OPEN = 12       # line 12: an opening of a connection that is not shut
BAD_RANK = 13           # line 13: an opening at a rank that there is not
QUEUE_FULL = 14         # 02, M-100, 7: a pulse, while 31 stand
ENDS_EARLY = 20         # 02, M-105, 1: too few bytes for the type's layout, and what is cut is no list whose count is whole
LEFT_OVER = 21          # 02, M-105, 1: too many bytes for the type's layout
LIST_CUT = 22           # 02, M-105, 1: too few bytes for the IDs or entries that a whole count says there are

BY_NAME = {name: number for name, number in list(globals().items()) if name.isupper()}
