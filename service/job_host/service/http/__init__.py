"""Connections and requests: who may have room and ask, and what every request has."""
