n = int(input())
letters = 'abcdefghijklmnopqrstuvwxyz'
x = 1
text = ''
for i in range(1, n + 1):
    x = x * 16807 % 2147483647
    start = x // 1000 % 20
    text += letters[start:start + x % 6 + 1] if i % 2 == 0 else str(x // 1000 % 10000)
    text += '+' if x % 5 == 0 else ' '
print(len(text), text[:20])

digit = {str(d): d for d in range(10)}
letter = set(letters)
words = set()
numbers = []
signs = 0
i = 0
while i < len(text):
    first = i
    if text[i] in letter:
        while i < len(text) and text[i] in letter:
            i += 1
        words.add(text[first:i])
    elif text[i] in digit:
        value = 0
        while i < len(text) and text[i] in digit:
            value = 10 * value + digit[text[i]]
            i += 1
        numbers.append(value)
    else:
        if text[i] != ' ':
            signs += 1
        i += 1
print(len(words), min(words), max(map(len, words)))
print(len(numbers), sum(numbers), signs)
