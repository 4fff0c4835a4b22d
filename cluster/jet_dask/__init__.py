"""The job files of jet over Dask distributed: the same rows, compared by tests and not proved."""
