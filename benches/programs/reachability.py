n = int(input())
x = 1
graph = {}
for place in range(1, n + 1):
    graph[place] = set()
    for way in range(2):
        x = x * 16807 % 2147483647
        graph[place].add(1 + x % n)
print(sum(map(len, graph.values())))

reached = {1}
waiting = {1}
while waiting:
    place = waiting.pop()
    new = graph[place] - reached
    reached |= new
    waiting |= new
print(len(reached), sum(reached))
