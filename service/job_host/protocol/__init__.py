"""What the service, its workers and its commands share: what goes over the wire, and the bounds that both ends know."""
