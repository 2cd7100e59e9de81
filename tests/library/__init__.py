"""The library for C, and the bindings over it. ./test runs each script."""
