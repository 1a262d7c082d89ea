"""Reference implementation of document 01, written from its text alone, and of the
requests of document 02 that have landed."""
