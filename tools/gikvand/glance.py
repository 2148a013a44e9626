"""Messages told at a glance. Nearly all that a journal has are exactly one right message, and an expression tells that
of them far sooner than those of fix.py do, which look at each byte. Of the others fix.py says what they are."""
import re

LONGEST = 297            # Of what the length of a frame (9) counts.
TRAILER = len("10=000|")

# A message with the header of an order. It has as parts the length, what that counts, the member, the number, and the sum.
MESSAGE = re.compile(rb"8=FIX\.4\.4\x019=([1-9][0-9]{1,2})\x01(35=[DFG]\x0149=C([1-8])\x0156=VENUE\x0134=([1-9][0-9]{0,8})\x01"
                     rb"52=[0-9]{8}-[0-9]{2}:[0-9]{2}:[0-9]{2}\x01(?:[1-9][0-9]{0,4}=[^\x01]+\x01)*)10=([0-9]{3})\x01")


def is_published(message: bytes, member: int) -> bool:
    """Whether a session of this member publishes it, as far as a glance tells: the form, length and sum are right."""
    found = MESSAGE.fullmatch(message)
    return (found is not None and int(found[1]) == len(found[2]) <= LONGEST and int(found[5]) == sum(message[:-TRAILER]) % 256
            and int(found[3]) == member and found[4] != b"1")
