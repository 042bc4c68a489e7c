"""A check of this folder by its name, as tests/run calls it: `python3 tests/checks NAME [WORDS]`."""
import checking

checking.main()
