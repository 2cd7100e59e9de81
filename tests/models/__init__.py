"""What tests compare with, written from the documents alone, apart from the program. They are called by other tests."""
