"""What the program plc must do, by the rules alone: a model that shares nothing with the crates."""
