"""Stands for matplotlib, which need not be installed: the picture is a JSON text of what was plotted."""


def use(backend: str) -> None:
    """Takes any backend."""
