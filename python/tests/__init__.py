"""All tests but those of the crates: tools, program, documents and the models that they are compared with."""
