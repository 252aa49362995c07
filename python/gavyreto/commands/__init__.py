"""A module for each command of the package, with a function `run` that takes the words after its name, and returns its exit
status or raises what ended it. `common` has what they share."""
