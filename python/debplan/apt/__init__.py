"""apt's sources, lists, pins, simulations, and the scenarios that it sends."""
