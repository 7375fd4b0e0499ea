"""A page for the browser on which a run is seen: what it is made of, and how it is written."""
