/* What tests/system/site/sites and tests/system/speed measure the program beside: plain sockets of UDP, nothing more. It is
   compiled by gcc -O2.

   plain loop IN TO PORT                     hands each datagram that comes to the address IN on to the address TO
   plain load PORT FROM WAY HEX BYTES SINK   for each line of its input, 'COUNT': so many datagrams go from FROM to WAY, as
                                             HEX and zeroes up to BYTES bytes, and come to SINK, at most WINDOW at once;
                                             prints how many nanoseconds that took, or 0 where one did not come in a second
   plain answer IN TO PORT COUNT BYTES       sends so many datagrams of so many bytes to TO, for each that comes to IN
   plain take ADDRESS PORT COUNT             acknowledges each eighth of COUNT datagrams, and prints when each piece of
                                             PIECE of them was there, in nanoseconds
   plain give ADDRESS PORT TO COUNT BYTES    sends them, at most WINDOW that are not acknowledged

   Addresses are of the loopback, and all use one port. */
#define _GNU_SOURCE
#include <arpa/inet.h>
#include <poll.h>
#include <stdio.h>
#include <stdlib.h>
#include <string.h>
#include <sys/socket.h>
#include <time.h>
#include <unistd.h>

enum { WINDOW = 32, EACH = 8, PIECE = 2000, MOST = 2048 };

static void fail(const char *what) {
  perror(what);
  exit(1);
}

static struct sockaddr_in at(const char *address, int port) {
  struct sockaddr_in it = {.sin_family = AF_INET, .sin_port = htons(port)};
  if (inet_pton(AF_INET, address, &it.sin_addr) != 1) fail(address);
  return it;
}

static int bound(const char *address, int port) {
  struct sockaddr_in it = at(address, port);
  int one = socket(AF_INET, SOCK_DGRAM, 0);
  struct timeval second = {.tv_sec = 1};
  if (one < 0 || bind(one, (struct sockaddr *)&it, sizeof it)) fail(address);
  if (setsockopt(one, SOL_SOCKET, SO_RCVTIMEO, &second, sizeof second)) fail("SO_RCVTIMEO");
  return one;
}

static long long now(void) {
  struct timespec it;
  clock_gettime(CLOCK_MONOTONIC, &it);
  return it.tv_sec * 1000000000LL + it.tv_nsec;
}

static void give(int one, const void *bytes, size_t size, struct sockaddr_in *to) {
  if (sendto(one, bytes, size, 0, (struct sockaddr *)to, sizeof *to) != (ssize_t)size) fail("sendto");
}

static void loop(char **words) {
  char bytes[MOST];
  int port = atoi(words[2]), one = bound(words[0], port);
  struct sockaddr_in to = at(words[1], port), from;
  puts("ready");
  fflush(stdout);
  for (;;) {
    socklen_t size = sizeof from;
    ssize_t count = recvfrom(one, bytes, sizeof bytes, 0, (struct sockaddr *)&from, &size);
    if (count >= 0) give(one, bytes, count, &to);
  }
}

static void answer(char **words) {
  char bytes[MOST] = {0};
  int port = atoi(words[2]), one = bound(words[0], port), size = atoi(words[4]);
  struct sockaddr_in to = at(words[1], port);
  puts("ready");
  fflush(stdout);
  for (;;)
    if (recv(one, bytes, sizeof bytes, 0) > 0)
      for (long left = atol(words[3]); left > 0; left--) give(one, bytes, size, &to);
}

static long long carried(int from, int sink, struct sockaddr_in *way, const char *bytes, int size, long count) {
  char came[MOST];
  long sent = 0, taken = 0;
  long long start = now();
  while (taken < count) {
    for (; sent < count && sent < taken + WINDOW; sent++) give(from, bytes, size, way);
    ssize_t got = recv(sink, came, sizeof came, 0);
    if (got < 0) return 0;
    /* (what a router says by itself is no datagram of ours) */
    taken += got == size && memcmp(came + size - 1, bytes + size - 1, 1) == 0 && came[16] == bytes[16] && came[17] == bytes[17];
  }
  return now() - start;
}

static int load(char **words) {
  int port = atoi(words[0]), size = atoi(words[4]), from = bound(words[1], port), sink = bound(words[5], port);
  struct sockaddr_in way;
  char bytes[MOST] = {0}, line[200], target[100];
  unsigned byte;
  for (size_t place = 0; sscanf(words[3] + 2 * place, "%2x", &byte) == 1; place++) bytes[place] = byte;
  while (fgets(line, sizeof line, stdin)) {
    long count;
    if (sscanf(line, "%99s %ld", target, &count) != 2) return 1;
    way = at(target, port);
    printf("%lld\n", carried(from, sink, &way, bytes, size, count));
    fflush(stdout);
  }
  return 0;
}

static int take(char **words) {
  char bytes[MOST];
  int port = atoi(words[1]), one = bound(words[0], port);
  long count = atol(words[2]);
  puts("ready");
  fflush(stdout);
  for (long taken = 1; taken <= count; taken++) {
    struct sockaddr_in from;
    socklen_t size = sizeof from;
    if (recvfrom(one, bytes, sizeof bytes, 0, (struct sockaddr *)&from, &size) < 0) fail("recvfrom");
    if (taken % EACH == 0 || taken == count) give(one, bytes, 42, &from);
    if (taken % PIECE == 0) printf("%lld\n", now());
  }
  return 0;
}

static int give_all(char **words) {
  char bytes[MOST] = {0};
  int port = atoi(words[1]), one = bound(words[0], port), size = atoi(words[4]);
  struct sockaddr_in to = at(words[2], port);
  long count = atol(words[3]), sent = 0, known = 0;
  while (known < count) {
    for (; sent < count && sent < known + WINDOW; sent++) give(one, bytes, size, &to);
    if (recv(one, bytes, sizeof bytes, 0) < 0) fail("recv");
    known = known + EACH < count ? known + EACH : count;
  }
  return 0;
}

int main(int count, char **words) {
  if (count == 5 && !strcmp(words[1], "loop")) loop(words + 2);
  if (count == 7 && !strcmp(words[1], "answer")) answer(words + 2);
  if (count == 8 && !strcmp(words[1], "load")) return load(words + 2);
  if (count == 5 && !strcmp(words[1], "take")) return take(words + 2);
  if (count == 7 && !strcmp(words[1], "give")) return give_all(words + 2);
  fputs("its words are at the head of tests/data/plain.c\n", stderr);
  return 2;
}
