"""An independent reader and checker of scripts and outputs of diddy, in plain Python. It is not proved. See docs/companion.md."""
