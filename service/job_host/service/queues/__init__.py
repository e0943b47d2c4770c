"""Several repositories behind one service: the queues, each with a history, a keeper and bounds of its own."""
