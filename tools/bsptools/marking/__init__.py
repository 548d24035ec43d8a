"""`bspcheck`: marks hand-ins by a sheet."""
