"""What several tests use: modules that are taken where they are, and a library that answers otherwise."""
import contextlib
import ctypes
import unittest.mock
import warnings

import wkt
from wkt._native import BOUND, _fast


def installed(name):
    """The module of that name, the package where the name has a dot, or None where it can't be imported."""
    with warnings.catch_warnings():  # of what others say of themselves
        warnings.simplefilter("ignore")
        try:
            return __import__(name)
        except ImportError:
            return None


@contextlib.contextmanager
def patched(name, change):
    """The library's call of this name, after which `change` gets what it was given, and may return a status."""
    call = getattr(wkt._library, name)

    def changed(*given):
        status = call(*given)
        answer = change(status, *given)
        return status if answer is None else answer

    known = name[4:] in BOUND
    if known:  # as a function of C, which the module in C calls too
        kinds = [ctypes.c_size_t if kind is ctypes.c_void_p else kind for kind in call.argtypes]
        changed = ctypes.CFUNCTYPE(call.restype, *kinds)(changed)
        changed.argtypes = call.argtypes

    def bind(function):
        if known and _fast is not None:
            _fast.bind(name, ctypes.cast(function, ctypes.c_void_p).value)

    with unittest.mock.patch.object(wkt._library, name, changed):
        bind(changed)
        try:
            yield
        finally:
            bind(call)
