"""What `cics-map` is made of: keys that are proposed, the question and its answer, where tasks abended, and the page."""
