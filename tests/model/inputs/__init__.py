"""Inputs for the program, drawn by a seed: drawings, plants, runs over a folder of state, schedules, and texts with a slip."""
