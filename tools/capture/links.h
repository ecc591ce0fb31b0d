/* Link layers: what stands before the IP header of a frame. */
#ifndef LINKS_H
#define LINKS_H

#include "octets.h"

enum network { NETWORK_IP4, NETWORK_IP6, NETWORK_OTHER, NETWORK_CUT };

/* Whether frames of this link type are read. It is a number of the file, or libpcap's number for it. */
bool link_is_read(int link);

/* Goes past the link header, VLAN tags included. NETWORK_OTHER: the frame has something else than IP. NETWORK_CUT: the snapshot
   length cut it before that is known. */
enum network link_skip(int link, struct slice *frame);

#endif
