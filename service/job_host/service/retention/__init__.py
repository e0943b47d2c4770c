"""Retention: job instances that are over for long are archived and purged, while this instance leads."""
