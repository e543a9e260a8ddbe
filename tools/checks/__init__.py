"""The gate's static checks: contracts, must-fail edits and documents, each over a top folder that is given."""
