"""The desk: a live office of gas days in the browser, on books that files keep."""
