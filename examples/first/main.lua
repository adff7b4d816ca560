print(1 + 2, "a")
print("seven times six is", 7 * 6)
print(9223372036854775807 + 1)
