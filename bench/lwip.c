/* lwIP's checksum over the pseudo header and the octets, as its own TCP calls it. */
#define _DEFAULT_SOURCE /* its headers want SSIZE_MAX */
#include "plain.h"
#include <lwip/inet_chksum.h>
#include <lwip/pbuf.h>
#include <lwip/def.h>

static uint16_t checksum(uint32_t src, uint32_t dst, const uint8_t *octets, size_t size)
{
    struct pbuf p = {.payload = (void *)octets, .len = (u16_t)size, .tot_len = (u16_t)size};
    ip4_addr_t from = {lwip_htonl(src)}, to = {lwip_htonl(dst)};
    return lwip_ntohs(inet_chksum_pseudo(&p, 6, (u16_t)size, &from, &to));
}

const struct plain plain_lwip = {.checksum = checksum};
