"""Other functions in the place of some of the models', for as long as a wrong model is asked."""
import contextlib


@contextlib.contextmanager
def instead(module, functions):
    """The module with other functions, which come by name."""
    kept = {name: getattr(module, name) for name in functions}
    try:
        for name, function in functions.items():
            setattr(module, name, function)
        yield
    finally:
        for name, function in kept.items():
            setattr(module, name, function)
