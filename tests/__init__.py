"""The tests of the repository. `python3 -m tests.all` runs all; one of them runs as `python3 -m tests.program.golden`, from the top."""
