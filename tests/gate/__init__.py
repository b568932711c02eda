"""The stages of the gate (.ci/run) in which nothing is proved."""
