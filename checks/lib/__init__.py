"""Modules that several checks use."""
