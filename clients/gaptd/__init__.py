"""A client library for gaptd: see README.md in the folder above."""
