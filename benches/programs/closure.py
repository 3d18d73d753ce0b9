n = int(input())
x = 1
relation = {}
for i in range(1, n + 1):
    relation[i] = set()
    for way in range(2):
        x = x * 16807 % 2147483647
        relation[i].add(i + 1 + x % 9)
pairs = {(a, b) for a, images in relation.items() for b in images}
print(len(pairs))

result = set(pairs)
new = pairs
rounds = 0
while new:
    new = {(a, c) for a, b in new for c in relation.get(b, ())} - result
    result |= new
    rounds += 1
print(len(result), rounds, sum((a, n) in result for a in {a for a, _ in result}))
