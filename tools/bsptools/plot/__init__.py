"""`bspplot`: draws what a run did and what it cost."""
