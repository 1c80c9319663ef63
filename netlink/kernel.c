/* The socket for operations: one message, its answer, then the next. */
#include "fib_kernel.h"
#include <arpa/inet.h>
#include <errno.h>
#include <libmnl/libmnl.h>
#include <linux/rtnetlink.h>
#include <linux/sock_diag.h>
#include <stdio.h>
#include <string.h>

/* The most bytes of a gateway in a message, which an IPv6 one for an IPv4 network takes; and those of the rest of the message. */
enum { LEG_SIZE = sizeof(struct rtnexthop) + MNL_ATTR_HDRLEN + MNL_ALIGN(sizeof(uint16_t) + 16), REST_SIZE = 256 };
enum { FULL_PART = 1 << 15 };                    /* the least memory of a part of a list, unless the kernel is short of memory */

static struct mnl_socket *kernel;
static uint32_t table, protocol, sequence;
static char received[1 << 16];
static char last_listed[INET6_ADDRSTRLEN + 4] = "the beginning";

static void put_gateway(struct nlmsghdr *head, int family, const struct leg *leg)
{
    struct { uint16_t family; unsigned char address[16]; } via = {.family = leg->family};
    size_t size = leg->family == AF_INET ? 4 : 16;
    memcpy(via.address, leg->gateway, size);
    if (leg->family == family)
        mnl_attr_put(head, RTA_GATEWAY, size, leg->gateway);
    else if (leg->family)
        mnl_attr_put(head, RTA_VIA, sizeof via.family + size, &via);
}

/* Without an index a device is no device, and not any device. */
static uint32_t index_of(const struct leg *leg)
{
    return leg->device ? leg->device : INT32_MAX;
}

static void put_legs(struct nlmsghdr *head, int family, const struct hop *hop)
{
    struct nlattr *all = mnl_attr_nest_start(head, RTA_MULTIPATH);
    for (const struct leg *leg = hop->legs; leg < hop->legs + hop->count; leg++) {
        struct rtnexthop *one = mnl_nlmsg_put_extra_header(head, sizeof *one);
        one->rtnh_hops = leg->weight;
        one->rtnh_flags = leg->is_onlink ? RTNH_F_ONLINK : 0;
        one->rtnh_ifindex = index_of(leg);
        put_gateway(head, family, leg);
        one->rtnh_len = (char *)mnl_nlmsg_get_payload_tail(head) - (char *)one;
    }
    mnl_attr_nest_end(head, all);
}

static void put_hop(struct nlmsghdr *head, struct rtmsg *route, const struct hop *hop)
{
    route->rtm_type = hop->number == DROP ? RTN_BLACKHOLE : RTN_UNICAST;
    if (hop->nhid)
        mnl_attr_put_u32(head, RTA_NH_ID, hop->nhid);
    else if (hop->count > 1)
        put_legs(head, route->rtm_family, hop);
    else if (hop->count) {
        if (route->rtm_family == AF_INET && !hop->legs->family)
            route->rtm_scope = RT_SCOPE_LINK;
        route->rtm_flags = hop->legs->is_onlink ? RTNH_F_ONLINK : 0;
        put_gateway(head, route->rtm_family, hop->legs);
        mnl_attr_put_u32(head, RTA_OIF, index_of(hop->legs));
    }
}

/* A message for a route of this protocol and table. */
static struct rtmsg *start(struct nlmsghdr *head, uint16_t type, uint16_t flags, uint8_t family)
{
    struct rtmsg *route = mnl_nlmsg_put_extra_header(head, sizeof *route);
    head->nlmsg_type = type;
    head->nlmsg_flags = NLM_F_REQUEST | flags;
    head->nlmsg_seq = ++sequence;
    route->rtm_family = family;
    route->rtm_protocol = protocol;
    mnl_attr_put_u32(head, RTA_TABLE, table);
    return route;
}

/* The kernel's words on an error. */
static void read_words(const struct nlmsghdr *head, char *words, size_t room)
{
    const struct nlmsgerr *error = mnl_nlmsg_get_payload(head);
    size_t copied = head->nlmsg_flags & NLM_F_CAPPED ? 0 : error->msg.nlmsg_len - sizeof error->msg;
    const struct nlattr *one;
    mnl_attr_for_each(one, head, sizeof *error + copied)
        if (mnl_attr_get_type(one) == NLMSGERR_ATTR_MSG && mnl_attr_validate(one, MNL_TYPE_NUL_STRING) >= 0)
            snprintf(words, room, "%s", mnl_attr_get_str(one));
}

static const struct nlmsghdr *send_and_wait(const struct nlmsghdr *head)
{
    int size = mnl_socket_sendto(kernel, head, head->nlmsg_len);
    if (size < 0 || (size = mnl_socket_recvfrom(kernel, received, sizeof received)) < 0)
        fault("netlink: %m");
    head = (void *)received;
    if (!mnl_nlmsg_ok(head, size))
        fault("netlink: an answer of %d bytes", size);
    if (head->nlmsg_seq != sequence)
        fault("netlink: an answer to another message");
    return head;
}

static struct answer answer_of(const struct nlmsghdr *head)
{
    const struct nlmsgerr *error = mnl_nlmsg_get_payload(head);
    struct answer answer = {.error = -error->error};
    if (head->nlmsg_type != NLMSG_ERROR)
        fault("netlink: an answer of the type %u", head->nlmsg_type);
    if (answer.error && head->nlmsg_flags & NLM_F_ACK_TLVS)
        read_words(head, answer.words, sizeof answer.words);
    return answer;
}

struct answer ask(const struct network *network, const struct hop *hop)
{
    char buffer[REST_SIZE + MOST_LEGS * LEG_SIZE];
    struct nlmsghdr *head = mnl_nlmsg_put_header(buffer);
    uint16_t flags = NLM_F_ACK | (hop ? NLM_F_CREATE | NLM_F_REPLACE : 0);
    struct rtmsg *route = start(head, hop ? RTM_NEWROUTE : RTM_DELROUTE, flags, network->family);
    route->rtm_dst_len = network->length;
    route->rtm_scope = hop ? RT_SCOPE_UNIVERSE : RT_SCOPE_NOWHERE;
    mnl_attr_put(head, RTA_DST, network->family == AF_INET ? 4 : 16, network->address);
    if (hop)
        put_hop(head, route, hop);
    return answer_of(send_and_wait(head));
}

/* A sandbox may refuse the sockets that if_nametoindex(3) opens. */
uint32_t find_device(const char *name)
{
    char buffer[256];
    struct nlmsghdr *head = mnl_nlmsg_put_header(buffer);
    mnl_nlmsg_put_extra_header(head, sizeof(struct ifinfomsg));
    head->nlmsg_type = RTM_GETLINK;
    head->nlmsg_flags = NLM_F_REQUEST;
    head->nlmsg_seq = ++sequence;
    mnl_attr_put_strz(head, IFLA_IFNAME, name);
    mnl_attr_put_u32(head, IFLA_EXT_MASK, RTEXT_FILTER_SKIP_STATS);
    const struct nlmsghdr *told = send_and_wait(head);
    return told->nlmsg_type == RTM_NEWLINK ? ((const struct ifinfomsg *)mnl_nlmsg_get_payload(told))->ifi_index : 0;
}

uint32_t open_kernel(uint32_t of_table, uint32_t of_protocol)
{
    const int options[] = {NETLINK_EXT_ACK, NETLINK_CAP_ACK, NETLINK_GET_STRICT_CHK};
    int on = 1;
    table = of_table;
    protocol = of_protocol;
    if (!(kernel = mnl_socket_open2(NETLINK_ROUTE, SOCK_CLOEXEC)) || mnl_socket_bind(kernel, 0, MNL_SOCKET_AUTOPID) < 0)
        fault("netlink: %m");
    for (size_t i = 0; i < sizeof options / sizeof *options; i++)
        if (mnl_socket_setsockopt(kernel, options[i], &on, sizeof on) < 0)
            fault("netlink: %m");
    return mnl_socket_get_portid(kernel);
}

/* The kernel looks at the permission first, and then refuses this length in any case. */
void need_permission(void)
{
    if (ask(&(struct network){.family = AF_INET, .length = 255}, NULL).error == EPERM)
        fault("no permission to change routes, which needs CAP_NET_ADMIN");
}

static int keep_attribute(const struct nlattr *one, void *has)
{
    if (mnl_attr_get_type(one) <= RTA_MAX)
        ((const struct nlattr **)has)[mnl_attr_get_type(one)] = one;
    return MNL_CB_OK;
}

static struct leg leg_of(uint8_t family, uint32_t device, uint8_t weight, unsigned flags, const struct nlattr *const *has)
{
    struct leg leg = {.device = device, .weight = weight, .is_onlink = !!(flags & RTNH_F_ONLINK)};
    const struct nlattr *via = has[RTA_GATEWAY] ? has[RTA_GATEWAY] : has[RTA_VIA];
    if (!via)
        return leg;
    size_t before = has[RTA_GATEWAY] ? 0 : sizeof(uint16_t), size = mnl_attr_get_payload_len(via) - before;
    leg.family = before ? *(uint16_t *)mnl_attr_get_payload(via) : family;
    memcpy(leg.gateway, (char *)mnl_attr_get_payload(via) + before, size < sizeof leg.gateway ? size : sizeof leg.gateway);
    return leg;
}

/* The gateways of a route. A route with more than a hop may have gets one more. */
static uint32_t legs_of(const struct rtmsg *route, const struct nlattr *const *has, struct leg *legs)
{
    uint32_t count = 0;
    if (!has[RTA_MULTIPATH]) {
        *legs = leg_of(route->rtm_family, has[RTA_OIF] ? mnl_attr_get_u32(has[RTA_OIF]) : 0, 0, route->rtm_flags, has);
        return 1;
    }
    struct rtnexthop *one = mnl_attr_get_payload(has[RTA_MULTIPATH]);
    int rest = mnl_attr_get_payload_len(has[RTA_MULTIPATH]);
    for (; RTNH_OK(one, rest) && count <= MOST_LEGS; rest -= RTNH_ALIGN(one->rtnh_len), one = RTNH_NEXT(one)) {
        const struct nlattr *of_leg[RTA_MAX + 1] = {0};
        mnl_attr_parse_payload(RTNH_DATA(one), one->rtnh_len - sizeof *one, keep_attribute, of_leg);
        legs[count++] = leg_of(route->rtm_family, one->rtnh_ifindex, one->rtnh_hops, one->rtnh_flags, of_leg);
    }
    return count;
}

static void print_route(const struct nlmsghdr *head)
{
    const struct rtmsg *route = mnl_nlmsg_get_payload(head);
    const struct nlattr *has[RTA_MAX + 1] = {0};
    struct leg legs[MOST_LEGS + 1];
    struct hop way = {.legs = legs};
    char net[INET6_ADDRSTRLEN];
    if (route->rtm_family != AF_INET && route->rtm_family != AF_INET6)
        return;
    mnl_attr_parse(head, sizeof *route, keep_attribute, has);
    if (route->rtm_protocol != protocol || !has[RTA_TABLE] || mnl_attr_get_u32(has[RTA_TABLE]) != table || route->rtm_flags & RTM_F_CLONED)
        return;
    inet_ntop(route->rtm_family, has[RTA_DST] ? mnl_attr_get_payload(has[RTA_DST]) : &in6addr_any, net, sizeof net);
    snprintf(last_listed, sizeof last_listed, "%s/%u", net, route->rtm_dst_len);
    if (route->rtm_type == RTN_UNICAST) {
        way.nhid = has[RTA_NH_ID] ? mnl_attr_get_u32(has[RTA_NH_ID]) : 0;
        way.count = legs_of(route, has, legs);
        printf("have %s %u\n", last_listed, (uint32_t)number_of(&way));
    } else
        printf("have %s drop\n", last_listed);
}

/* The memory of the part that waits: the kernel makes each part before it is asked for. */
static uint32_t memory_of_part(void)
{
    uint32_t told[SK_MEMINFO_VARS];
    socklen_t size = sizeof told;
    if (getsockopt(mnl_socket_get_fd(kernel), SOL_SOCKET, SO_MEMINFO, told, &size))
        fault("netlink: %m");
    return told[SK_MEMINFO_RMEM_ALLOC];
}

/* The next route has no room in an empty part. */
static void lacks_room(uint32_t memory)
{
    if (memory < FULL_PART)
        fault("list: the kernel is short of memory, and has no room for the route after %s", last_listed);
    fault("list: the route after %s has too many gateways for the kernel to list it", last_listed);
}

/* The end has the number of an error, 0 for none. Older kernels, such as Linux 6.1, have 0 also where an IPv6 route had no room. */
static void take_end(const struct nlmsghdr *head, uint32_t memory)
{
    int error = mnl_nlmsg_get_payload_len(head) < sizeof error ? EBADMSG : -*(const int *)mnl_nlmsg_get_payload(head);
    if (error == EMSGSIZE)
        lacks_room(memory);
    if (error)
        fault("list: the kernel ended it after %s: %s", last_listed, strerror(error));
    if (head->nlmsg_type != NLMSG_DONE)
        fault("list: an answer without a list");
    if (memory < FULL_PART)
        fault("list: the kernel is short of memory, and may have left out routes after %s", last_listed);
}

/* Whether more parts come. */
static bool take_part(int size, uint32_t memory)
{
    const struct nlmsghdr *head = (void *)received;
    if (!size)
        lacks_room(memory);
    for (; mnl_nlmsg_ok(head, size); head = mnl_nlmsg_next(head, &size)) {
        if (head->nlmsg_seq != sequence)
            fault("netlink: an answer to another message");
        if (head->nlmsg_flags & NLM_F_DUMP_INTR)
            begin_again("the table changed while it was listed");
        if (head->nlmsg_type < NLMSG_MIN_TYPE)
            return take_end(head, memory), false;
        print_route(head);
    }
    if (size > 0)
        fault("list: a message is cut off after %s", last_listed);
    return true;
}

/* If a route has no room in a part, a list of all families ends with an error where a list of one family may not. A part has at most 32 kB,
   and at most the size of the buffer in which an answer came before. So an answer comes first. A missing table has no routes. */
void list_routes(void)
{
    uint32_t memory;
    int size;
    find_device("lo");
    struct nlmsghdr *head = mnl_nlmsg_put_header(received);
    start(head, RTM_GETROUTE, NLM_F_DUMP, AF_UNSPEC);
    if (mnl_socket_sendto(kernel, head, head->nlmsg_len) < 0)
        fault("list: %m");
    do {
        memory = memory_of_part();
        if ((size = mnl_socket_recvfrom(kernel, received, sizeof received)) < 0 && errno == ENOSPC)
            fault("list: the part after %s is longer than %zu bytes", last_listed, sizeof received);
        if (size < 0)
            fault("list: the part after %s did not come: %m", last_listed);
    } while (take_part(size, memory));
}
