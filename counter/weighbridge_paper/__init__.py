"""The papers of a weighbridge: the office's text, checked, laid out and printed."""
