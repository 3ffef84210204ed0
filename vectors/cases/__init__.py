"""The cases written by hand, one module for each topic, in the order in which they are asked."""
