"""What ./test doesn't run, since it takes long."""
