"""A built-in chain of iptables, from the text of `iptables-save`."""
from .save import read

__all__ = ["read"]
