"""What the experiments are made of. Times are whole nanoseconds and places are sectors unless they say otherwise."""
