"""What tools/check-linked is made of: the declarations in the Rattle sources, their layout in C, the C file that holds the header to
it, the host programs that know the proved code by the header alone, the batches that the one replays, and the reports on settings
that the other has laid into places."""
