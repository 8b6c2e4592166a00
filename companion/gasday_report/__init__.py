"""The companion of `gasday` that shows its answers to people. Nothing of it is proved."""
