/* Sends each octet back that one connection after another sends: what `bench/server.py` lays the server beside. */
#include <netinet/in.h>
#include <netinet/tcp.h>
#include <stdlib.h>
#include <sys/socket.h>
#include <unistd.h>

int main(int count, char **words)
{
    struct sockaddr_in at = {.sin_family = AF_INET};
    int one = 1, listener = socket(AF_INET, SOCK_STREAM, 0);
    char octets[4096];

    if (count != 2)
        return 2;
    at.sin_addr.s_addr = htonl(INADDR_LOOPBACK);
    at.sin_port = htons(atoi(words[1]));
    setsockopt(listener, SOL_SOCKET, SO_REUSEADDR, &one, sizeof one);
    if (bind(listener, (struct sockaddr *)&at, sizeof at) || listen(listener, 1))
        return 3;
    for (;;) {
        int peer = accept(listener, 0, 0);
        ssize_t read_octets;

        setsockopt(peer, IPPROTO_TCP, TCP_NODELAY, &one, sizeof one);
        while ((read_octets = read(peer, octets, sizeof octets)) > 0)
            if (write(peer, octets, read_octets) != read_octets)
                break;
        close(peer);
    }
}
