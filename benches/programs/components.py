n = int(input())
x = 1
graph = {place: set() for place in range(1, n + 1)}
for way in range(3 * n // 2):
    x = x * 16807 % 2147483647
    place = 1 + x // 1000 % n
    x = x * 16807 % 2147483647
    graph[place].add(1 + x // 1000 % n)
print(sum(map(len, graph.values())))

seen = set()
order = []
for root in graph:
    if root in seen:
        continue
    seen.add(root)
    stack = [(root, iter(graph[root]))]
    while stack:
        place, ways = stack[-1]
        other = next(ways, None)
        if other is None:
            order.append(place)
            stack.pop()
        elif other not in seen:
            seen.add(other)
            stack.append((other, iter(graph[other])))

back = {place: set() for place in graph}
for a, images in graph.items():
    for b in images:
        back[b].add(a)
root_of = {}
stack = [(place, place) for place in order]
while stack:
    place, root = stack.pop()
    if place not in root_of:
        root_of[place] = root
        for other in back[place]:
            stack.append((other, root))

members = {}
for place, root in root_of.items():
    members.setdefault(root, set()).add(place)
sizes = {root: len(places) for root, places in members.items()}
print(len(sizes), max(sizes.values()), sum(size == 1 for size in sizes.values()))
