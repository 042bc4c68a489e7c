from ..strace import importing as whole

__doc__ = whole.__doc__
SUMMARY = "make a trace of a log of strace"
add_arguments, run = whole.add_arguments, whole.run
