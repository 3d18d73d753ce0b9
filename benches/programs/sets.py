n = int(input())
x = 1
s = set()
t = set()
for i in range(n):
    x = x * 16807 % 2147483647
    s.add(x % (2 * n))
    t.add(x // 3 % (2 * n))
print(len(s), len(t), len(s | t), len(s & t), len(s - t))

hits = 0
for i in range(1, n + 1):
    if i in s and i not in t:
        hits += 1
print(hits, min(s), max(t))

for i in t:
    s.discard(i)
print(len(s), sum(s))
