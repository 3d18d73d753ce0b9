n = int(input())
x = 1
graph = {place: set() for place in range(1, n + 1)}
for place in graph:
    for way in range(3):
        x = x * 16807 % 2147483647
        other = 1 + x % n
        if other != place:
            graph[place].add(other)
            graph[other].add(place)
print(sum(map(len, graph.values())))

colour = {}
for place in range(1, n + 1):
    taken = {colour[other] for other in graph[place] if other in colour}
    colour[place] = next(shade for shade in range(1, len(taken) + 2) if shade not in taken)

places = {}
for place, shade in colour.items():
    places.setdefault(shade, set()).add(place)
for shade in sorted(places):
    print(shade, len(places[shade]))
print('true' if all(colour[a] != colour[b] for a, images in graph.items() for b in images) else 'false')
