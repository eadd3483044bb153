"""The parts of tools/merged, tools/axioms, tools/replay_of, tools/checked and tools/least_budget."""
