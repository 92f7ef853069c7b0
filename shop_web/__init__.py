"""A shop over HTTP: `shop serve`."""
