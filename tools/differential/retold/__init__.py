"""The Rust's answers as our lines: the other way from told/, so that a list can be made without a program of ours."""
