"""Configurations of devices, read as lists of rules: access lists of IOS and EOS, chains of nftables and of iptables.

Each dialect has a module of its own (`ios`, `nft`, `iptables`). They share the sets of values of a field (`fields`), the names
of protocols and ports (`names`), the rules and where each comes from (`listing`), and chains with jumps (`chains`).
"""
