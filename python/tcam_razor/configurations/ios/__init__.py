"""Extended IPv4 access lists of Cisco IOS and IOS-XE (dialect `ios`), and of Arista EOS (`eos`).

Written from the vendors' references as remembered: no device judged it.
"""
from .lists import read

__all__ = ["read"]
