"""The generators of proof files, one module for each subject. checks/generate/run runs them."""
