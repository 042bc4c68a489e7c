from ..strace import record as whole

__doc__ = whole.__doc__
SUMMARY = "run a command under strace, and keep its log and its VMAs"
add_arguments, run = whole.add_arguments, whole.run
