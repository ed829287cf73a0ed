"""From PDDL to the language of tlplan, and back with its plans."""
