"""A base chain of nftables, of type filter and family ip or inet, from the JSON of `nft -j list ruleset`."""
from .ruleset import read

__all__ = ["read"]
