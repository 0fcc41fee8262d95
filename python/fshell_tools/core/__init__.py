"""What all tools share: the program and its reports, automata, inputs, verdicts, sources and their maps."""
