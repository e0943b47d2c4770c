"""One leader's time: calls, claims, sessions, leases and moments."""
