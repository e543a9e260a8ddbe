"""What tools/bench is made of: the build of the measured program, the two whole programs, and the table. The measured
program is harness.c over the proved code (include/vorstelpijp.h) and the same rules stepped plainly in Rust (plain.rs)."""
