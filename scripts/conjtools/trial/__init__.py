"""The trial of the workflow through Slurm: a cluster of this one machine, what is run on it, and what is made to fail."""
