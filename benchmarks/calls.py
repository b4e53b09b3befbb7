def fib(n):
    if n < 2:
        return n
    return fib(n - 1) + fib(n - 2)


print("main value", fib(30))
