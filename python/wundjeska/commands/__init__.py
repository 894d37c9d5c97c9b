"""The verbs of the command `wundjeska`. Each module has `words()`, its parser, and `main(asked)`, which gives the status."""
