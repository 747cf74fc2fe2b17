"""What tools/send is made of: packet lines, a target behind frames, and runs of a suite."""
