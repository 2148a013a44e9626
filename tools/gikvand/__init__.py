"""What people hold in their hands beside the venue: the commands of `gikvand`, a module each, and what they share, which is the
bytes of a journal (journals), messages (fix), the rules for a member's bytes (rules), the built programs (programs), a journal's
symbols (symbols), ports, locks, files, this machine's clock, what mends a journal (mends), what members behind the edge know
(edge), and forms of rows and words. It needs Python's own library alone."""
