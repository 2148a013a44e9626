"""What is wrong with a journal's bytes, and what mends it, in words. docs/OPERATING.md says more of each."""
import shlex

from gikvand.journals import BrokenOff, Damaged

NOT_A_JOURNAL = "it doesn't begin with the header of a journal of version 1, 2 or 3 (fault 43): is the name right?"
CHANGED = "No session of the venue publishes that: something else wrote to the file. Keep it, and look for a whole copy"
LOGGED = "The journal or this log was changed, or the journal is an older copy. Keep both, and look for a whole copy"
FALSE = "The entries before it lead to another one. Were other symbols given? Else something else wrote to the file"


def what_stands_before(journal: str, offset: int) -> str:
    """The command that makes a journal of the blocks before this gate."""
    return f"{{ head -c {offset} {shlex.quote(journal)}; printf '\\0'; }} >mended.journal"


def of_damage(journal: str, why: Damaged) -> str:
    """What a person does about it."""
    kept = f"What stands before is whole: {what_stands_before(journal, why.offset)}"
    if isinstance(why, BrokenOff):
        return f"A copy that was broken off ends so, as rsync and tar make them while the venue serves. {kept}"
    return f"Something else wrote to the file, or the medium lost bytes. Keep it, and look for a whole copy. {kept}"


def of_pending(blocks: int) -> str:
    """What a person does about whole blocks behind a closed gate."""
    kinds = ("A copy by gikvand follow goes on by the same words, as where its disk was full. One that only appends, as of "
             "rsync --append and tail -F, never takes the gates that were opened later: copy it anew")
    if blocks > 1:
        return kinds
    return f"A crash leaves that, in front of its last gate, and nobody was told of these. Or is it a copy? {kinds}"
