"""The tests of the package, which `python3 -m unittest` runs in bindings/python: on files that the models of tools/models
make, against these models and against the program columns."""
