"""The archive: what was told of job instances before they were purged, in files that the service and the commands read."""
