"""What has no exact form is refused, by its line and with its reason; what takes part otherwise than as written is told.

A row has a dialect, a configuration, what is assumed, and what is expected of it: a part of a fault; behind `+` a part of a
notice, where nothing is refused; behind `=` the number of rules.
"""
import json
import unittest

from tcam_razor import importing

LIST = "ip access-list extended A\n"
NEW, OPENED, WHOLE, PING = {"state": "new"}, {"state": "established"}, {"fragments": "no"}, {"icmp": "8/0"}

IOS = [
    (LIST + " permit tcp any any established", {}, "line 2: established asks for flags"),
    (LIST + " permit tcp any any established", OPENED, "=2"),
    (LIST + " permit tcp any any established\n permit udp any any", NEW, "+line 2: matches no packet with state=new: permit tcp any any established"),
    (LIST + " permit ip any any established", NEW, "established without tcp"),
    (LIST + " permit ip any any fragments", {}, "line 2: fragments asks"),
    (LIST + " deny ip any any fragments\n permit ip any any", WHOLE, "+line 2: matches no packet with fragments=no"),
    (LIST + " permit tcp any any ack", NEW, "ack isn't one of the five fields"),
    (LIST + " permit tcp any any match-all +syn -ack", {}, "match-all isn't"),
    (LIST + " permit ip any any time-range WORK", {}, "time-range isn't"),
    (LIST + " permit ip any any dscp ef", {}, "dscp isn't"),
    (LIST + " permit ip any any tos 4", {}, "tos isn't"),
    (LIST + " permit ip any any precedence 4", {}, "precedence isn't"),
    (LIST + " permit ip any any ttl eq 1", {}, "ttl isn't"),
    (LIST + " permit ip any any option 7", {}, "option isn't"),
    (LIST + " permit tcp any any reflect X", {}, "reflect isn't"),
    (LIST + " evaluate X", {}, "line 2: no entry"),
    (LIST + " dynamic X permit ip any any", {}, "line 2: no entry"),
    (LIST + " permit icmp any any echo", {}, "asks for the ICMP type"),
    (LIST + " permit icmp any any echo", PING, "=2"),
    (LIST + " permit icmp any any 8 0", PING, "=2"),
    (LIST + " permit icmp any any 8 1\n permit icmp any any", PING, "+line 2: matches no packet with icmp=8/0"),
    (LIST + " permit icmp any any 256", PING, "above 255"),
    (LIST + " permit igmp any any dvmrp", {}, "unknown word dvmrp"),
    (LIST + " permit ip any any log COOKIE", {}, "unknown word COOKIE"),
    (LIST + " permit tcp any any eq telnett", {}, "write its number"),
    (LIST + " permit udp any any eq www", {}, "port name www: write its number"),
    (LIST + " permit tcp any any eq 65536", {}, "port 65536"),
    (LIST + " permit tcp any any eq 1 2 3 4 5 6 7 8 9 10", {}, "=2"),
    (LIST + " permit tcp any any eq 1 2 3 4 5 6 7 8 9 10 11", {}, "more than 10 ports"),
    (LIST + " permit sctp any any eq 80", {}, "=2"),
    (LIST + " permit ip any any eq 80", {}, "ports of protocols that have none"),
    (LIST + " permit icmp any eq 80 any", {}, "ports of protocols that have none"),
    (LIST + " permit 33 any eq 80 any", {}, "ports of protocols that have none"),
    (LIST + " permit tcp any lt 0 any", {}, "no port matches"),
    (LIST + " permit tcp any gt 65535 any", {}, "no port matches"),
    (LIST + " permit tcp any range 9 5 any", {}, "begins above its end"),
    (LIST + " permit 0 any any", {}, "protocol 0"),
    (LIST + " permit 255 any any", {}, "=2"),
    (LIST + " permit 256 any any", {}, "unknown protocol"),
    (LIST + " permit ip 10.0.0.0/8 any", {}, "IOS has wildcards"),
    (LIST + " permit ip 10.0.0.0 255.0.0.0 any", {}, "+looks like a netmask"),
    (LIST + " permit ip 10.0.0.0 255.255.255.0 any", {}, "needs more than 256 prefixes"),
    (LIST + " permit ip 10.0.0.0 0.170.170.0 any", {}, "=257"),
    (LIST + " permit ip 10.0.0.0 0.170.171.0 any", {}, "the wildcard 0.170.171.0 needs more than 256 prefixes"),
    (LIST + " permit ip host web1 any", {}, "address web1"),
    (LIST + " permit ip addrgroup G any", {}, "address addrgroup"),
    (LIST + " permit ip any object-group NONE", {}, "no network object-group NONE"),
    (LIST + " permit ip any", {}, "ends too early"),
    (LIST + " 20 permit ip any any\n 10 deny tcp any any", {}, "line 3: sequence number isn't above 20"),
    (LIST + " 20 permit ip any any\n 20 deny tcp any any", {}, "line 3: sequence number isn't above 20"),
    (LIST + " 20 permit ip any any\n deny tcp any any", {}, "line 3: no sequence number"),
    (LIST + " permit ip any any\n 20 deny tcp any any", {}, "line 3: sequence number behind lines that have none"),
    (LIST + " remark first\n 20 permit ip any any\n remark last", {}, "=2"),
    (LIST + " no 20", {}, "line 2: no entry"),
    (LIST + " remark nothing", {}, "has no entry"),
    (LIST, {}, "has no entry"),
    (LIST + LIST + " permit ip any any", {}, "line 2: begins a second time: ip access-list extended A"),
    (LIST + " permit ip any any\nno ip access-list extended A", {}, "line 3: takes away what stands before it"),
    ("no ip access-list extended A\n" + LIST + " permit ip any any", {}, "=2"),
    ("access-list 101 permit ip any any\nno access-list 101\naccess-list 101 deny ip any any", {}, "line 2: takes away what stands before it"),
    ("access-list 101 permit ip any any\nip access-list extended 101\n deny ip any any", {}, "line 2: begins a second time"),
    ("permit tcp any any\n" + LIST + " permit ip any any", {}, "line 1: outside of a list"),
    (" permit tcp any any\n" + LIST + " permit ip any any", {}, "line 1: outside of a list"),
    (LIST + " permit tcp any any\nhostname X\npermit ip any any", {}, "line 4: outside of a list"),
    (LIST + " permit tcp any any\n!\n! a comment ends no list\n permit udp any any", {}, "=3"),
    (LIST + "permit tcp any any\npermit udp any any", {}, "=3"),
    (LIST + "permit tcp any any\nPERMIT udp any any", {}, "line 3: no entry"),
    (LIST + "permit tcp any any\nperm udp any any", {}, "line 3: no entry"),
    (LIST + " permit tcp any any\ndefault interface X", {}, "=2"),
    (LIST + " \u00b2 permit ip any any", {}, "sequence number isn't above"),
    (LIST + " 99999999999 permit ip any any", {}, "sequence number isn't above"),
    (LIST + " permit ip any any\nip access-list extended B\n permit ip any any", {}, "several lists, pick one of: A, B"),
    ("ip access-list standard S\npermit any\nipv6 access-list V\n permit ipv6 any any\n" + LIST + " permit ip any any", {}, "=2"),
    ("ip access-list standard A\n permit any", {}, "no extended list"),
    ("access-list 10 permit any", {}, "no extended list"),
    ("access-list 200 permit any", {}, "no extended list"),
    ("access-list 2699 deny ip any any", {}, "=2"),
    ("access-list 101 permit ip any any log", {}, "+line 1: log takes no part: access-list 101 permit ip any any log"),
    ("object-group network G\n 10.0.0.0 0.255.255.255\n" + LIST + " permit ip object-group G any", {}, "a group has netmasks"),
    ("object-group network G\n 10.0.0.0 255.0.0.0\n 10.1.0.0 /16\n host 11.0.0.1\n" + LIST + " permit ip object-group G any", {}, "=3"),
    ("object-group network G\nhost 1.1.1.1\nhost 3.3.3.3\n" + LIST + " permit ip object-group G any", {}, "=3"),
    ("object-group network G\n group-object G\n" + LIST + " permit ip object-group G any", {}, "nested too deep"),
    ("object-group network G\n description empty\n" + LIST + " permit ip object-group G any", {}, "no network object-group G, or an empty one"),
    ("object-group network G\n host web\n" + LIST + " permit ip object-group G any", {}, "address web"),
    ("object-group network G\n host 1.1.1.1\nobject-group network G\n host 2.2.2.2\n" + LIST + " permit ip object-group G any", {}, "line 3: begins a second time"),
    ("object-group network G\n host 1.1.1.1\nobject-group network G\n host 2.2.2.2\n" + LIST + " permit ip any any", {}, "=2"),
    ("object-group service G\n icmp echo\n" + LIST + " permit object-group G any any", {}, "object-group G, line 2"),
    ("object-group service G\n tcp neq 5\n" + LIST + " permit object-group G any any", {}, "write its number"),
    ("object-group service G\n tcp-udp source range 1 9 eq 53\n" + LIST + " permit object-group G any any", {}, "=3"),
    ("object-group service G\n tcp\n" + LIST + " permit object-group G any any established", OPENED, "=2"),
]
EOS = [
    ("ip access-list A\n permit ip 10.0.0.0/8 any", {}, "=2"),
    ("ip access-list A\n permit ip 10.0.0.0/33 any", {}, "prefix 10.0.0.0/33"),
    ("ip access-list A\n permit ip object-group G any", {}, "no network object-group G"),
    ("ip access-list A\n permit tcp any any eq https", {}, "=2"),
    ("ip access-list A\n permit vlan 5 0xFFF ip any any", {}, "unknown protocol vlan"),
    ("ip access-list A\n counters per-entry\n permit ip any any", {}, "+line 2: counters take no part"),
    ("ip access-list A\n statistics per-entry\n 10 permit ip any any", {}, "+line 2: counters take no part"),
    ("ip access-list A\n permit ip any any tracked", {}, "tracked isn't"),
    ("ip access-list standard A\n permit ip any any", {}, "no extended list"),
]
SAVE = "*filter\n:INPUT DROP [0:0]\n:C - [0:0]\n{}\nCOMMIT\n"
IPTABLES = [(SAVE.format(rules), assumed, expected) for rules, assumed, expected in [
    ("-A INPUT -i lo -j ACCEPT", {}, "line 4: -i lo: say --assume in=NAME"),
    ("-A INPUT -i lo -j ACCEPT", {"in": "eth0"}, "+line 4: matches no packet with in=eth0"),
    ("-A INPUT -i eth+ -j ACCEPT", {"in": "eth0"}, "=2"),
    ("-A INPUT ! -o eth1 -j ACCEPT", {"out": "eth1"}, "+line 4: matches no packet with out=eth1"),
    ("-A INPUT -m conntrack --ctstate RELATED,ESTABLISHED -j ACCEPT", {}, "say --assume state=NAME"),
    ("-A INPUT -m conntrack --ctstate RELATED,ESTABLISHED -j ACCEPT", {"state": "related"}, "=2"),
    ("-A INPUT -m conntrack ! --ctstate INVALID -j ACCEPT", {"state": "invalid"}, "+line 4: matches no packet with state=invalid"),
    ("-A INPUT -m conntrack --ctstate DNAT -j ACCEPT", NEW, "--ctstate DNAT"),
    ("-A INPUT -m limit --limit 5/sec -j ACCEPT", {}, "match limit"),
    ("-A INPUT -m set --match-set X src -j ACCEPT", {}, "match set"),
    ("-A INPUT -m recent --update --seconds 60 -j DROP", {}, "match recent"),
    ("-A INPUT -m owner --uid-owner 5 -j DROP", {}, "match owner"),
    ("-A INPUT -m mark --mark 0x1 -j DROP", {}, "match mark"),
    ("-A INPUT -p tcp -m tcp --tcp-flags FIN,SYN,RST,ACK SYN -j ACCEPT", {}, "option --tcp-flags"),
    ("-A INPUT -p icmp -m icmp --icmp-type 8 -j ACCEPT", {}, "say --assume icmp=TYPE/CODE"),
    ("-A INPUT -p icmp -m icmp --icmp-type 8/0 -j ACCEPT", PING, "=2"),
    ("-A INPUT -f -j DROP", {}, "say --assume fragments=no"),
    ("-A INPUT ! -f -j DROP", WHOLE, "=2"),
    ("-A INPUT -p tcp -m tcp --dport 22 -j NFQUEUE --queue-num 1", {}, "no target NFQUEUE"),
    ("-A INPUT -s 10.0.0.1/32 -j MARK --set-xmark 0x1/0xffffffff", {}, "no target MARK"),
    ("-A INPUT -s 1.1.1.1/32 -j C\n-A C -g C", {}, "jumps are nested too deep"),
    ("-A INPUT -s 1.1.1.1/32 -j C\n-A C -j C", {}, "jumps are nested too deep"),
    ("-A INPUT -j DROP\n-A INPUT -m limit --limit 1/sec -j ACCEPT", {}, "line 5: match limit"),
    ("-A INPUT -m limit --limit 1/sec -i lo -j ACCEPT", {"in": "eth0"}, "+line 4: matches no packet with in=eth0"),
    ("-A INPUT -j DROP\n-A INPUT -s 1.1.1.1/32 -j ACCEPT", {}, "=3"),
    ("-A INPUT -j D", {}, "no chain D"),
    ("-A INPUT ! -j DROP", {}, "-j DROP, negated"),
    ("-A INPUT -s 10.0.0.1/32", {}, "+line 4: decides nothing"),
    ("-A INPUT -s 10.0.0.1/32 -j LOG --log-prefix x", {}, "+line 4: decides nothing"),
    ("-A INPUT -p tcp -m tcp ! --sport 53 ! --dport 7 -j DROP", {}, "both ports negated"),
    ("-A INPUT -p sctp -m sctp ! --sport 53 ! --dport 7 -j DROP", {}, "=2"),
    ("-A INPUT -p tcp -m tcp ! --sport 53:54 ! --dport 7 -j DROP", {}, "=2"),
    ('-A INPUT -p tcp -m tcp --dport 7 -m comment --comment "! --sport 1 ! --dport 2" -j DROP', {}, "=2"),
    ('-A INPUT -m comment --comment "open -j DROP', {}, "line 4: quotes"),
    ("-A INPUT ! -p tcp -j DROP", {}, "=256"),
    ("-A INPUT -p 0 -j DROP", {}, "protocol 0"),
    ("-A INPUT -p frob -j DROP", {}, "protocol frob"),
    ("-A INPUT -s 10.0.0.0/8 -j REJECT --reject-with icmp-host-prohibited", {}, "=2"),
    ("-A INPUT -j REJECT --reject-with \"a b\"", {}, "--reject-with a b"),
    ("-A INPUT -p udp -m string --string x --algo bm -j DROP", {}, "match string"),
    ("-A INPUT -p tcp -m ttl --ttl-eq 5 -j DROP", {}, "match ttl"),
    ("-A INPUT -m tcp --dport 22 -j DROP", {}, "ports of protocols that have none"),
    ("-A INPUT -p tcp -m multiport --ports 1,2:9 -j DROP", {}, "=3"),
    ("-A INPUT -s 10.0.0.1/255.0.0.255 -j DROP", {}, "the mask 255.0.0.255 needs more than 256 prefixes"),
    ("-A INPUT --frob -j DROP", {}, "option --frob"),
    ("-A INPUT -p tcp -m tcp --dport 22 -j c", {}, "no chain c"),
    ("-I INPUT -s 1.2.3.4 -j DROP", {}, "line 4: no line of iptables-save: -I INPUT"),
    ("-P INPUT DROP", {}, "line 4: no line of iptables-save"),
    ("-N D", {}, "line 4: no line of iptables-save"),
]] + [
    ("*nat\n:INPUT ACCEPT [0:0]\nCOMMIT\n", {}, "no table filter, only nat"),
    ("*filter\n:INPUT DROP [0:0]\nCOMMIT\n*filter\n:INPUT ACCEPT [0:0]\nCOMMIT\n", {}, "line 4: no line of iptables-save: *filter"),
    ("*filter\n:INPUT DROP [0:0]\nCOMMIT\n*mangle\n:INPUT DROP [0:0]\nCOMMIT\n", {}, "+chain mangle INPUT takes part too"),
    ("*filter\n:INPUT QUEUE [0:0]\nCOMMIT\n", {}, "policy QUEUE of chain INPUT"),
    ("", {}, "no table filter"),
]


def match(left, right, operator="=="):
    return {"match": {"op": operator, "left": left, "right": right}}


def payload(protocol, name):
    return {"payload": {"protocol": protocol, "field": name}}


def meta(key):
    return {"meta": {"key": key}}


SADDR, DPORT, SPORT, STATE = payload("ip", "saddr"), payload("tcp", "dport"), payload("tcp", "sport"), {"ct": {"key": "state"}}
FRAGMENT = {"&": [payload("ip", "frag-off"), 8191]}
ACCEPT = {"accept": None}
BESIDE = [
    {"set": {"family": "ip", "table": "t", "name": "dyn", "type": "ipv4_addr", "flags": ["dynamic"]}},
    {"set": {"family": "ip", "table": "t", "name": "out", "type": "ipv4_addr", "flags": ["timeout"]}},
    {"set": {"family": "ip", "table": "t", "name": "seen", "type": "ipv4_addr", "elem": ["10.0.0.1"]}},
    {"set": {"family": "ip", "table": "t", "name": "fix", "type": "ipv4_addr", "elem": ["10.0.0.1", {"prefix": {"addr": "10.1.0.0", "len": 16}}]}},
    {"rule": {"family": "ip", "table": "t", "chain": "other", "handle": 9, "expr": [{"set": {"op": "add", "elem": SADDR, "set": "@seen"}}]}},
]
BASE = {"family": "ip", "table": "t", "name": "c", "type": "filter", "hook": "input", "prio": 0, "policy": "drop"}


def ruleset(statements, *more):
    rule = {"rule": {"family": "ip", "table": "t", "chain": "c", "handle": 5, "expr": statements}}
    return json.dumps({"nftables": [{"metainfo": {}}, {"chain": BASE}, {"chain": {"family": "ip", "table": "t", "name": "other"}}, *BESIDE, rule, *more]})


NFT = [(ruleset(statements), assumed, expected) for statements, assumed, expected in [
    ([match(SADDR, "@fix"), ACCEPT], {}, "=3"),
    ([match(SADDR, "@dyn"), ACCEPT], {}, "ip t c handle 5: set @dyn changes"),
    ([match(SADDR, "@out"), ACCEPT], {}, "set @out changes"),
    ([match(SADDR, "@seen"), ACCEPT], {}, "set @seen changes"),
    ([match(SADDR, "@none"), ACCEPT], {}, "no set @none"),
    ([match(SADDR, {"set": [{"elem": {"val": "10.0.0.1", "timeout": 60}}]}), ACCEPT], {}, "ends by time"),
    ([match(SADDR, {"set": [{"elem": {"val": "10.0.0.1", "comment": "web"}}]}), ACCEPT], {}, "=2"),
    ([match({"payload": {"tunnel": "vxlan", "protocol": "ip", "field": "saddr"}}, "10.0.0.1"), ACCEPT], {}, "isn't one of the five fields"),
    ([match(meta("iifname"), "eth\\*"), ACCEPT], {"in": "eth0"}, "iifname"),
    ([match(payload("ip", "dscp"), "ef"), ACCEPT], {}, "ip dscp isn't one of the five fields"),
    ([match({"&": [SADDR, "255.0.0.255"]}, "10.0.0.1"), ACCEPT], {}, "isn't one of the five fields"),
    ([match(meta("mark"), 5), ACCEPT], {}, "meta mark isn't"),
    ([match(meta("skuid"), 5), ACCEPT], {}, "meta skuid isn't"),
    ([match({"ct": {"key": "mark"}}, 5), ACCEPT], {}, "ct mark isn't"),
    ([match(STATE, ["established", "related"], "in"), ACCEPT], {}, "say --assume state"),
    ([match(STATE, ["established", "related"], "in"), ACCEPT], OPENED, "=2"),
    ([match(STATE, [2, 4], "in"), ACCEPT], {"state": "related"}, "=2"),
    ([match(STATE, {"|": ["established", "related"]}), ACCEPT], OPENED, "ct state =="),
    ([match(STATE, ["established", "related"], "!="), ACCEPT], OPENED, "ct state !="),
    ([match(payload("tcp", "flags"), "syn"), ACCEPT], {}, "tcp flags isn't"),
    ([match(payload("th", "dport"), 80), ACCEPT], {}, "ports of protocols that have none"),
    ([match(meta("l4proto"), {"set": ["tcp", "udp"]}), match(payload("th", "dport"), 80), ACCEPT], {}, "=3"),
    ([match(meta("l4proto"), "tcp", "!="), ACCEPT], {}, "=256"),
    ([match(meta("iifname"), "lo"), ACCEPT], {}, "say --assume in"),
    ([match(meta("iifname"), "eth*"), ACCEPT], {"in": "eth0"}, "=2"),
    ([match(meta("oif"), "eth0"), ACCEPT], {"out": "eth1"}, "+ip t c handle 5: matches no packet with out=eth1"),
    ([match(meta("nfproto"), "ipv6"), ACCEPT], {}, "+matches no IPv4 packet"),
    ([match(payload("ip6", "saddr"), "::1"), ACCEPT], {}, "+matches no IPv4 packet"),
    ([match(payload("icmp", "type"), "echo-request"), ACCEPT], {}, "icmp type: say --assume icmp=TYPE/CODE"),
    ([match(payload("icmp", "type"), "echo-request"), ACCEPT], PING, "=2"),
    ([match(payload("icmp", "code"), "net-unreachable"), ACCEPT], {"icmp": "3/0"}, "=2"),
    ([match(payload("icmp", "code"), "net-unreachable"), ACCEPT], {"icmp": "3/3"}, "+matches no packet with icmp=3/3"),
    ([match(payload("icmp", "type"), {"range": [3, 8]}), ACCEPT], PING, "=2"),
    ([match(FRAGMENT, 0, "!="), ACCEPT], {}, "ip frag-off: say --assume fragments=no"),
    ([match(FRAGMENT, 0, "!="), ACCEPT], WHOLE, "+matches no packet with fragments=no"),
    ([match({"fib": {"result": "type", "flags": ["daddr"]}}, "local"), ACCEPT], {}, "fib isn't one of the five fields"),
    ([match(SPORT, 27, "!="), match(DPORT, 29, "!="), ACCEPT], {}, "both ports negated"),
    ([match(SPORT, {"set": [27, 28]}, "!="), match(DPORT, 29, "!="), ACCEPT], {}, "=2"),
    ([match(payload("icmp", "type"), 9, "!="), match(payload("icmp", "code"), 7, "!="), ACCEPT], PING, "both type and code negated"),
    ([match({"concat": [SADDR, DPORT]}, {"set": [{"concat": ["10.0.0.1", 22]}, {"concat": ["10.0.0.2", 23]}]}), ACCEPT], {}, "=3"),
    ([match({"concat": [SADDR, DPORT]}, {"set": [{"concat": ["10.0.0.1", 22]}]}, "!="), ACCEPT], {}, "concatenation with !="),
    ([{"vmap": {"key": DPORT, "data": {"set": [[22, ACCEPT], [23, {"drop": None}]]}}}], {}, "=3"),
    ([{"vmap": {"key": SADDR, "data": {"set": [["*", ACCEPT]]}}}], {}, "address *"),
    ([{"vmap": {"key": DPORT, "data": {"set": [["*", ACCEPT]]}}}], {}, 'value "*"'),
    ([{"vmap": {"key": DPORT, "data": {"set": [[22, {"queue": None}]]}}}], {}, "verdict queue"),
    ([{"limit": {"rate": 5, "per": "second"}}, ACCEPT], {}, "limit statement"),
    ([{"limit": {"rate": 5, "per": "second"}}, match(meta("iifname"), "lo"), ACCEPT], {"in": "eth0"}, "+matches no packet with in=eth0"),
    ([{"quota": {"val": 5}}, ACCEPT], {}, "quota statement"),
    ([{"queue": {"num": 1}}], {}, "queue statement"),
    ([{"mangle": {"key": meta("mark"), "value": 1}}, ACCEPT], {}, "mangle statement"),
    ([{"xt": {"type": "match", "name": "string"}}, ACCEPT], {}, "xt statement"),
    ([{"notrack": None}, ACCEPT], {}, "notrack statement"),
    ([{"jump": {"target": "nowhere"}}], {}, "no chain nowhere"),
    ([{"counter": {"packets": 0, "bytes": 0}}], {}, "+decides nothing"),
    ([ACCEPT, {"counter": None}], {}, "something follows the verdict"),
    ([{"match": {"op": "=="}}, ACCEPT], {}, "a form that isn't known"),
    ([match(DPORT, "ssh"), ACCEPT], {}, "nft -nj"),
    ([match(meta("l4proto"), "frob"), ACCEPT], {}, "nft -nj"),
    ([match(DPORT, 65536), ACCEPT], {}, "value 65536"),
    ([{"reject": {"type": "icmpv6", "expr": "no-route"}}], {}, "+matches no IPv4 packet"),
    ([{"reject": {"type": "icmp", "expr": 77}}], {}, "reject with icmp 77"),
]] + [
    (ruleset([ACCEPT], {"table": {"family": "ip", "name": "t", "flags": "dormant"}}), {}, "may be dormant"),
    (ruleset([ACCEPT], {"chain": BASE | {"table": "u"}}), {}, "+chain ip u c stands at hook input too, and isn't part of the list"),
    (json.dumps({"nftables": [{"chain": BASE | {"type": "nat"}}]}), {}, "no base chain of type filter"),
    (json.dumps({"nftables": [{"chain": BASE | {"family": "ip6"}}]}), {}, "no base chain of type filter"),
    ("table ip t {}", {}, "no output of"),
    ("[]", {}, "no output of"),
]


class Lines(unittest.TestCase):
    def test_each_row_is_refused_told_or_taken_as_it_says(self):
        for dialect, rows in (("ios", IOS), ("eos", EOS), ("iptables", IPTABLES), ("nft", NFT)):
            for text, assumed, expected in rows:
                with self.subTest(dialect=dialect, text=text[-100:], assumed=assumed):
                    self.expect(importing.read(dialect, text, assume=assumed).listing, expected)

    def expect(self, listing, expected):
        if expected[0] not in "+=":
            self.assertTrue(any(expected in fault for fault in listing.faults), (expected, listing.faults))
            return
        self.assertEqual({}, listing.faults)
        if expected[0] == "=":
            self.assertEqual(int(expected[1:]), len(listing.rules), listing.rules[:9])
        else:
            self.assertTrue(any(expected[1:] in notice for notice in listing.notices), (expected, listing.notices))


if __name__ == "__main__":
    unittest.main()
