"""Versions of the jobs of a service: who applied which, what each has, and where they are kept."""
