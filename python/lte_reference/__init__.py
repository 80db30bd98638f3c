"""Reference implementations, written from the standard or from docs/, whose values the tests of crates/ expect."""
