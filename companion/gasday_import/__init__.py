"""The companion of `gasday` that makes texts out of spreadsheets. Nothing of it is proved."""
