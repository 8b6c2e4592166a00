"""The companion of `gasday` that hands many archives, gas days and questions to many processors. Nothing of it is proved."""
