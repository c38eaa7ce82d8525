"""Hostile input for the parts of the product that read what others wrote: cases are changed at random, and one that fails is kept."""
