n = int(input())
total = 0
for i in range(1, n + 1):
    if i % 3 == 0 or i % 5 == 0:
        total += i
print(total)

i = n
halved = 0
while i > 0:
    if i % 2 == 0:
        halved += i // 2
    i -= 1
print(halved)
