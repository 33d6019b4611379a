"""Pages that are lists of what stands in the code: definitions, public calls, and edits that the prover must refuse."""
