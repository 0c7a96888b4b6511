#include "tun.h"

#include <fcntl.h>
#include <linux/if.h>
#include <linux/if_tun.h>
#include <stdio.h>
#include <string.h>
#include <sys/ioctl.h>
#include <unistd.h>

int open_tun(const char *name) {
    struct ifreq request;
    memset(&request, 0, sizeof request);
    if (strlen(name) >= IFNAMSIZ) {
        fprintf(stderr, "ao-nc: the name of the device is too long\n");
        return -1;
    }
    memcpy(request.ifr_name, name, strlen(name));
    request.ifr_flags = IFF_TUN | IFF_NO_PI;
    int tun = open("/dev/net/tun", O_RDWR | O_NONBLOCK);
    if (tun < 0) {
        perror("ao-nc: /dev/net/tun");
        return -1;
    }
    if (ioctl(tun, TUNSETIFF, &request) < 0) {
        perror("ao-nc: TUNSETIFF");
        close(tun);
        return -1;
    }
    return tun;
}
