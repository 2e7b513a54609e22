"""Tests of the models and the cases, which need nothing of the port: `cd tools && python3 -m unittest`."""
