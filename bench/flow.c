/* flow.c: one maximum flow, by the way of Dinic: shortest ways by levels, as much as fits along each. bench/cuts.py compiles it.
 * It reads NODES ARCS and then for each arc FROM TO CAPACITY, of which a capacity below 0 has no bound, and prints the greatest flow
 * from node 0 to node 1. It proves nothing, and finds one cut, where sfm finds all slopes and all best sets. */
#include <stdio.h>
#include <stdlib.h>

typedef long long amount;
static const amount UNBOUNDED = 1LL << 60;

static int nodes, arcs;
static int *first, *next, *to, *level, *at, *queue;
static amount *room;

static void add(int arc, int from, int end, amount capacity) {
  to[arc] = end;
  room[arc] = capacity;
  next[arc] = first[from];
  first[from] = arc;
}

/* The levels of all nodes by their least number of arcs with room from node 0; whether node 1 has one. */
static int find_levels(void) {
  int head = 0, tail = 0;
  for (int node = 0; node < nodes; node++) level[node] = -1;
  level[0] = 0;
  queue[tail++] = 0;
  while (head < tail) {
    int node = queue[head++];
    for (int arc = first[node]; arc >= 0; arc = next[arc])
      if (room[arc] > 0 && level[to[arc]] < 0) {
        level[to[arc]] = level[node] + 1;
        queue[tail++] = to[arc];
      }
  }
  return level[1] >= 0;
}

/* As much as can be sent from a node to node 1 along the levels, up to a limit. */
static amount send(int node, amount limit) {
  amount sent = 0;
  if (node == 1) return limit;
  for (; at[node] >= 0; at[node] = next[at[node]]) {
    int arc = at[node];
    if (room[arc] <= 0 || level[to[arc]] != level[node] + 1) continue;
    amount more = send(to[arc], room[arc] < limit - sent ? room[arc] : limit - sent);
    room[arc] -= more;
    room[arc ^ 1] += more;
    sent += more;
    if (sent == limit) return sent;
  }
  return sent;
}

static void *list(int count, size_t size) {
  void *it = calloc((size_t)count + 1, size);
  if (!it) exit(5);
  return it;
}

int main(void) {
  amount flow = 0;
  if (scanf("%d %d", &nodes, &arcs) != 2 || nodes < 2 || arcs < 0 || nodes > 10000000 || arcs > 10000000) return 2;
  first = list(nodes, sizeof(int));
  level = list(nodes, sizeof(int));
  at = list(nodes, sizeof(int));
  queue = list(nodes, sizeof(int));
  next = list(2 * arcs, sizeof(int));
  to = list(2 * arcs, sizeof(int));
  room = list(2 * arcs, sizeof(amount));
  for (int node = 0; node < nodes; node++) first[node] = -1;
  for (int arc = 0; arc < arcs; arc++) {
    int from, end;
    amount capacity;
    if (scanf("%d %d %lld", &from, &end, &capacity) != 3 || from < 0 || end < 0 || from >= nodes || end >= nodes) return 2;
    add(2 * arc, from, end, capacity < 0 ? UNBOUNDED : capacity);
    add(2 * arc + 1, end, from, 0);
  }
  while (find_levels()) {
    for (int node = 0; node < nodes; node++) at[node] = first[node];
    flow += send(0, UNBOUNDED);
  }
  printf("%lld\n", flow);
  return 0;
}
