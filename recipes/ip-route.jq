# Reads `ip -j route` or `ip -j -6 route`, and prints a line `NET PREF HOP` for each route, for recipes/number. Smaller metrics are better.
# It prints nothing if a route has an encapsulation: `ip` gives its address the name `dst` too, which hides the network.
# The hop of a nexthop object is its gateways, or `nhid NUMBER` if the kernel sends none (sysctl `net.ipv4.nexthop_compat_mode`).
def net($six):
    if .dst == "default" then (if $six then "::/0" else "0.0.0.0/0" end)
    elif .dst | contains("/") then .dst
    else .dst + (if $six then "/128" else "/32" end) end;
def gateway:
    (if .gateway then "via \(.gateway) " elif .via then "via \(.via.family) \(.via.host) " else "" end) + "dev \(.dev)";
def several:
    if length == 1 then .[0] | gateway
    else [.[] | "nexthop " + gateway + (if .weight > 1 then " weight \(.weight)" else "" end)] | join(" ") end;
def hop:
    if .encap or any(.nexthops[]?; .encap) then error("a route with an encapsulation, which no hop can name: \(.)")
    elif .nexthops then .nexthops | several
    elif (.type // "unicast") == "unicast" and .dev then gateway
    elif (.type // "unicast") == "unicast" and .nhid then "nhid \(.nhid)"
    elif .type == "blackhole" or .type == "unreachable" or .type == "prohibit" then "drop"
    else error("not a route that leads or drops: \(.)") end;
def live: map(select(.flags | index("dead") | not));
live | map(if .nexthops then .nexthops |= live else . end | select(.nexthops != []))
| any(.[]; (.dst + (.gateway // "") | contains(":")) or .pref) as $six
| [.[] | "\(net($six)) \([65535 - (.metric // 0), 0] | max) \(hop)"] | .[]
