# Reads FRR's `show ip route json` or `show ipv6 route json`, and prints a line `NET PREF HOP` for each route, for recipes/number. The
# route that FRR uses is best, followed by those with smaller distances. It prints nothing if a route has an encapsulation. The label 3,
# implicit null, is none.
def gateway($six):
    if .ip == null then "" elif .afi == "ipv6" and ($six | not) then "via inet6 \(.ip) " else "via \(.ip) " end
    + "dev \(.interfaceName)";
def hop($six; $hops):
    if any($hops[]; any(.labels[]?; . != 3) or .seg6 or .seg6local)
    then error("a route with an encapsulation, which no hop can name: \(.prefix)")
    elif any($hops[]; .blackhole or .unreachable or .reject) then "drop"
    elif ($hops | length) == 1 then $hops[0] | gateway($six)
    else [$hops[] | "nexthop " + gateway($six) + (if (.weight // 1) > 1 then " weight \(.weight)" else "" end)] | join(" ") end;
[.[][] | (.prefix | contains(":")) as $six
    | [.nexthops[] | select(.active and (.recursive | not) and (.duplicate | not))] as $hops
    | select($hops != []) | "\(.prefix) \(255 - .distance + (if .selected then 256 else 0 end)) \(hop($six; $hops))"] | .[]
