"""The rules of docs/PROFILE.md, docs/JOURNAL.md and docs/EVENTS.md in plain Python, the second statement of them, on purpose. They were
written from these pages alone. Tests compare the programs with them, and no tool that ships imports them."""
