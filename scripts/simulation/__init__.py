"""Whole shops in one process, on a clock of their own: the real carrier over sites, folders, a server and askers that are simulated."""
