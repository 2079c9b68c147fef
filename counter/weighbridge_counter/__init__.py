"""The counter of a weighbridge."""
