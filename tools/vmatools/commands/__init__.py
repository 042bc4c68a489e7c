"""One module a subcommand of `vma`: SUMMARY, add_arguments(parser) and run(options), which returns the exit status."""
