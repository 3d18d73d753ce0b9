n = int(input())
letters = 'abcdefghijkl'
x = 1
count = {}
for i in range(n):
    word = ''
    for k in range(3):
        x = x * 16807 % 2147483647
        word += letters[x // 1000 % 12]
    if word in count:
        count[word] += 1
    else:
        count[word] = 1
print(len(count))

for word, k in sorted(count.items(), key=lambda item: (-item[1], item[0]))[:10]:
    print(word, k)
