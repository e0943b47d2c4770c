"""What the leader does by itself, as the settings of jobs say: it restarts what failed, and ends what takes too long."""
