"""What stands on the library: databases, the registry, packages, many machines. ./test runs each script, or one that it runs does."""
