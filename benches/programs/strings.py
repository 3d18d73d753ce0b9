n = int(input())
letters = 'abcdefghijklmnopqrstuvwxyz'
x = 1
text = ''
for i in range(n):
    x = x * 16807 % 2147483647
    text += letters[x // 1000 % 26]
print(len(text), text[:20])

vowels = 0
for letter in text:
    if letter in {'a', 'e', 'i', 'o', 'u'}:
        vowels += 1
back = text[::-1]
print(vowels, back[:20], 'true' if text < back else 'false')

alike = 0
for i in range(n - 2):
    if text[i:i + 3] == back[n - i - 3:n - i]:
        alike += 1
parts = {text[i:i + 2] for i in range(n - 1)}
print(alike, len(parts), min(parts), len(3 * text))
