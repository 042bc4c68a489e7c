"""What dev/package puts into a package beside files of the repository: manual pages and completion, made from the parsers."""
