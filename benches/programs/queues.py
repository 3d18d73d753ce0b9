from collections import deque

n = int(input())
queue = deque(range(1, n + 1))
check = 0
while len(queue) > 1:
    for k in range(2):
        queue.append(queue.popleft())
    person = queue.popleft()
    check = (31 * check + person) % 1000003
print(queue[0], check)

stack = []
x = 1
for i in range(n):
    x = x * 16807 % 2147483647
    number = x // 1000 % 3
    if stack and stack[-1] == number:
        check += stack.pop()
    else:
        stack.append(number)
print(len(stack), check)
