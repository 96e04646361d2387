"""What tools/chart is made of: reading, naming, layout and drawing."""
