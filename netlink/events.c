/* The socket for events. It is not the socket for operations, since an event would come in place of an answer. */
#include "fib_kernel.h"
#include <arpa/inet.h>
#include <errno.h>
#include <libmnl/libmnl.h>
#include <linux/filter.h>
#include <linux/rtnetlink.h>

static struct mnl_socket *events;
static uint32_t our_table;

/* Our own changes and the routes of other tables stay outside. All tables above 255 have one number here. */
static void set_filter(uint32_t table, uint32_t port)
{
    struct sock_filter steps[] = {
        BPF_STMT(BPF_LD | BPF_W | BPF_ABS, offsetof(struct nlmsghdr, nlmsg_pid)),
        BPF_JUMP(BPF_JMP | BPF_JEQ | BPF_K, htonl(port), 5, 0),
        BPF_STMT(BPF_LD | BPF_H | BPF_ABS, offsetof(struct nlmsghdr, nlmsg_type)),
        BPF_JUMP(BPF_JMP | BPF_JEQ | BPF_K, htons(RTM_NEWROUTE), 1, 0),
        BPF_JUMP(BPF_JMP | BPF_JEQ | BPF_K, htons(RTM_DELROUTE), 0, 3),
        BPF_STMT(BPF_LD | BPF_B | BPF_ABS, sizeof(struct nlmsghdr) + offsetof(struct rtmsg, rtm_table)),
        BPF_JUMP(BPF_JMP | BPF_JEQ | BPF_K, table < 256 ? table : RT_TABLE_COMPAT, 1, 0),
        BPF_STMT(BPF_RET | BPF_K, 0),
        BPF_STMT(BPF_RET | BPF_K, UINT32_MAX),
    };
    struct sock_fprog program = {sizeof steps / sizeof *steps, steps};
    if (setsockopt(mnl_socket_get_fd(events), SOL_SOCKET, SO_ATTACH_FILTER, &program, sizeof program))
        fault("events: %m");
}

int open_events(uint32_t table, uint32_t port)
{
    const int groups[] = {RTNLGRP_LINK, RTNLGRP_IPV4_IFADDR, RTNLGRP_IPV6_IFADDR, RTNLGRP_NEXTHOP, RTNLGRP_IPV4_ROUTE, RTNLGRP_IPV6_ROUTE};
    our_table = table;
    if (!(events = mnl_socket_open2(NETLINK_ROUTE, SOCK_CLOEXEC)) || mnl_socket_bind(events, 0, MNL_SOCKET_AUTOPID) < 0)
        fault("events: %m");
    set_filter(table, port);
    for (size_t i = 0; i < sizeof groups / sizeof *groups; i++)
        if (mnl_socket_setsockopt(events, NETLINK_ADD_MEMBERSHIP, (void *)&groups[i], sizeof *groups) < 0)
            fault("events: %m");
    return mnl_socket_get_fd(events);
}

static const struct nlattr *attribute(const struct nlmsghdr *head, size_t before, uint16_t type)
{
    const struct nlattr *one;
    mnl_attr_for_each(one, head, before)
        if (mnl_attr_get_type(one) == type)
            return one;
    return NULL;
}

static void take_link(const struct nlmsghdr *head)
{
    const struct ifinfomsg *link = mnl_nlmsg_get_payload(head);
    const struct nlattr *name = attribute(head, sizeof *link, IFLA_IFNAME);
    const char *text = name ? mnl_attr_get_str(name) : "?";
    bool is_wireless = attribute(head, sizeof *link, IFLA_WIRELESS);       /* a scan, as a rule */
    if (!is_wireless && uses_device(link->ifi_index, text))
        begin_again("the link %s changed", text);
}

/* With an IPv4 address its routes go, too, and with an IPv6 address none. An address is also announced whenever its time is prolonged. */
static void take_address(const struct nlmsghdr *head)
{
    const struct ifaddrmsg *address = mnl_nlmsg_get_payload(head);
    const struct nlattr *name = attribute(head, sizeof *address, IFA_LABEL);
    if (!uses_device(address->ifa_index, NULL))
        return;
    if (address->ifa_family == AF_INET6 || head->nlmsg_type == RTM_NEWADDR)
        try_soon();
    else
        begin_again("an address of the link %s was removed", name ? mnl_attr_get_str(name) : "?");
}

static void take_route(const struct nlmsghdr *head)
{
    const struct nlattr *table = attribute(head, sizeof(struct rtmsg), RTA_TABLE);
    if (!table || mnl_attr_get_u32(table) == our_table)
        begin_again("the table %u was changed from outside", our_table);
}

static void take_event(const struct nlmsghdr *head)
{
    switch (head->nlmsg_type) {
    case RTM_NEWLINK: case RTM_DELLINK:
        take_link(head);
        break;
    case RTM_NEWADDR: case RTM_DELADDR:
        take_address(head);
        break;
    case RTM_NEWNEXTHOP: case RTM_DELNEXTHOP:
        if (uses_objects())
            begin_again("a nexthop object changed");
        break;
    case RTM_NEWROUTE: case RTM_DELROUTE:
        take_route(head);
        break;
    }
}

/* The gateways of an event have at most 64 kB, so it has room, whatever table its route is of. */
void take_events(void)
{
    static char buffer[1 << 17];
    int size = mnl_socket_recvfrom(events, buffer, sizeof buffer);
    if (size < 0 && errno == ENOSPC)
        begin_again("events were lost: one is longer than %zu bytes", sizeof buffer);
    if (size < 0)
        begin_again("events were lost: %m");
    for (const struct nlmsghdr *head = (void *)buffer; mnl_nlmsg_ok(head, size); head = mnl_nlmsg_next(head, &size))
        take_event(head);
}
