"""What the files of the repository say of one another, and what a run of ./test leaves. ./test runs each script."""
